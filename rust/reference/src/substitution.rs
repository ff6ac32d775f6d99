//! Filling one variable. The substitution of a path is the composition of
//! its single bindings, applied one after another (01: "Filling by one
//! substitution and then another equals filling by their composition").

use std::collections::HashMap;
use std::hash::{BuildHasherDefault, Hasher};
use std::marker::PhantomData;
use std::rc::Rc;

use crate::expression::{Expression, Pair, Variable};

#[derive(Clone, Debug)]
pub struct Binding {
    pub variable: Variable,
    pub value: Expression,
}

/// Smaller trees are filled again rather than looked up.
const WORTH_REMEMBERING: usize = 8;

/// One application of a binding to many trees. What was made of a shared
/// tree is remembered, so that sharing survives and is used. The trees stay
/// borrowed for `'t`, hence an address means one tree all the while.
pub struct Filling<'b, 't> {
    binding: &'b Binding,
    done: HashMap<*const Pair, Expression, BuildHasherDefault<AddressHasher>>,
    trees: PhantomData<&'t Pair>,
}

impl<'b, 't> Filling<'b, 't> {
    pub fn new(binding: &'b Binding) -> Filling<'b, 't> {
        Filling { binding, done: HashMap::default(), trees: PhantomData }
    }

    pub fn apply(&mut self, tree: &'t Expression) -> Expression {
        match tree {
            Expression::Variable(v) if *v == self.binding.variable => self.binding.value.clone(),
            Expression::Pair(pair) if tree.may_hold(self.binding.variable) => self.apply_to_pair(pair),
            other => other.clone(),
        }
    }

    pub fn apply_all(&mut self, trees: &'t [Expression]) -> Vec<Expression> {
        trees.iter().map(|tree| self.apply(tree)).collect()
    }

    fn apply_to_pair(&mut self, pair: &'t Rc<Pair>) -> Expression {
        // A tree with one owner cannot be met a second time.
        let shared = Rc::strong_count(pair) > 1;
        let nodes = pair.head.nodes() + pair.tail.nodes();
        let remember = shared && nodes > WORTH_REMEMBERING;
        if remember {
            if let Some(done) = self.done.get(&Rc::as_ptr(pair)) {
                return done.clone();
            }
        }
        let filled = Expression::pair(self.apply(&pair.head), self.apply(&pair.tail));
        if remember {
            self.done.insert(Rc::as_ptr(pair), filled.clone());
        }
        filled
    }
}

/// Addresses are spread enough after one multiplication.
#[derive(Default)]
pub struct AddressHasher(u64);

impl Hasher for AddressHasher {
    fn write(&mut self, bytes: &[u8]) {
        for &byte in bytes {
            self.write_usize(usize::from(byte));
        }
    }

    fn write_usize(&mut self, address: usize) {
        let mixed = (self.0 ^ address as u64).wrapping_mul(0x9E37_79B9_7F4A_7C15);
        self.0 = mixed ^ (mixed >> 32);
    }

    fn finish(&self) -> u64 {
        self.0
    }
}
