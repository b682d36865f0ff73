//! Planted differences.

use second::compare::{Asked, Called, Desk, Lent, Outcome, Own};

/// Second's own functions, but for the change of what each call did.
pub struct Planted<F: FnMut(Asked, &Lent, &mut Called)> {
    own: Own,
    change: F,
}

pub fn planted<F: FnMut(Asked, &Lent, &mut Called)>(change: F) -> Planted<F> {
    let own = Own::default();
    Planted { own, change }
}

impl<F: FnMut(Asked, &Lent, &mut Called)> Desk for Planted<F> {
    fn call(&mut self, asked: Asked, lent: &Lent) -> Outcome {
        let mut called = self.own.call(asked, lent)?;
        (self.change)(asked, lent, &mut called);
        Ok(called)
    }
}
