//! What the search of step 2b keeps in the lent scratch: a distance and a place
//! in line for each agent.

use crate::limits::MAX_AGENTS;

/// The agents reached so far, in the order in which they were.
#[derive(Debug)]
pub struct Line<'a> {
    /// By agent, its distance plus one; 0 for whoever is not reached.
    distance: &'a mut [u8],
    /// By place, the agent there.
    agent: &'a mut [u8],
    /// How many places are taken.
    length: usize,
}

impl<'a> Line<'a> {
    /// Nobody is in line, whatever the scratch holds.
    pub fn new(scratch: &'a mut [u8]) -> Self {
        let (distance, rest) = scratch.split_at_mut(MAX_AGENTS);
        let mut line = Line {
            distance,
            agent: &mut rest[..MAX_AGENTS],
            length: 0,
        };
        line.clear();
        line
    }

    pub fn clear(&mut self) {
        self.distance.fill(0);
        self.length = 0;
    }

    /// The agent goes to the end of the line, unless it is in line already.
    pub fn join(&mut self, agent: usize, distance: usize) {
        if !self.has(agent) {
            self.distance[agent] = byte(distance + 1);
            self.agent[self.length] = byte(agent);
            self.length += 1;
        }
    }

    pub fn has(&self, agent: usize) -> bool {
        self.distance[agent] != 0
    }

    /// How many are in line.
    pub fn length(&self) -> usize {
        self.length
    }

    pub fn agent_at(&self, place: usize) -> usize {
        usize::from(self.agent[place])
    }

    /// Everybody at this distance, lowest number first.
    pub fn ring(&self, distance: usize) -> impl Iterator<Item = usize> + '_ {
        let is_there = move |&agent: &usize| usize::from(self.distance[agent]) == distance + 1;
        (0..MAX_AGENTS).filter(is_there)
    }
}

fn byte(number: usize) -> u8 {
    u8::try_from(number).expect("no more than there are agents")
}
