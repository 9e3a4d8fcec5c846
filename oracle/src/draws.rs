//! Random choices taken from a lent list, since the source's generator belongs to another crate.

/// The state is the count of draws made, so that it can continue through restarts and splits.
#[derive(Clone, Debug)]
pub struct Draws<'a> {
    list: &'a [u32],
    made: usize,
}

impl<'a> Draws<'a> {
    pub fn new(list: &'a [u32]) -> Self {
        Self { list, made: 0 }
    }

    pub fn made(&self) -> usize {
        self.made
    }

    /// The next draw; the only place that knows what follows the last of the list: on each pass
    /// through it every number is one more than on the pass before, wrapping at 32 bits.
    pub fn drawn(&mut self) -> u32 {
        let (pass, place) = (self.made / self.list.len(), self.made % self.list.len());
        self.made += 1;
        self.list[place].wrapping_add(pass as u32)
    }

    /// Brings the picked to the first `count` places; the last exchange uses a draw even where it
    /// has no choice.
    pub fn pick(&mut self, places: &mut [usize], count: usize) {
        for i in 0..count {
            let j = i + self.drawn() as usize % (places.len() - i);
            places.swap(i, j);
        }
    }
}

#[cfg(test)]
mod tests {
    use super::*;

    #[test]
    fn a_pass_later_each_draw_is_one_more() {
        let mut draws = Draws::new(&[7, u32::MAX, 0]);
        let drawn: Vec<u32> = (0..8).map(|_| draws.drawn()).collect();
        assert_eq!(drawn, [7, u32::MAX, 0, 8, 0, 1, 9, 1]);
        assert_eq!(draws.made(), 8);
    }
}
