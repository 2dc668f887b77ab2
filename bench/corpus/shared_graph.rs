//! A graph of `Rc`, `Weak` and `RefCell`: tasks that wait for others, and a tree whose nodes know their parents.
#[macro_use]
mod program;

use std::cell::{Cell, RefCell};
use std::rc::{Rc, Weak};

struct Task {
    number: u32,
    waits_for: Cell<usize>,
    followers: RefCell<Vec<Rc<Task>>>,
}

struct Leaf {
    weight: Cell<u32>,
    parent: RefCell<Weak<Leaf>>,
    children: RefCell<Vec<Rc<Leaf>>>,
}

fn next(state: &mut u32) -> u32 {
    *state = state.wrapping_mul(1664525).wrapping_add(1013904223);
    *state >> 8
}

fn order(count: u32, state: &mut u32) -> u32 {
    let tasks: Vec<Rc<Task>> = (0..count)
        .map(|number| Rc::new(Task { number, waits_for: Cell::new(0), followers: RefCell::default() }))
        .collect();
    for (at, task) in tasks.iter().enumerate().skip(1) {
        for _ in 0..3 {
            let before = &tasks[next(state) as usize % at];
            before.followers.borrow_mut().push(Rc::clone(task));
            task.waits_for.set(task.waits_for.get() + 1);
        }
    }
    let mut ready: Vec<Rc<Task>> = tasks.iter().filter(|task| task.waits_for.get() == 0).cloned().collect();
    let mut sum = 0u32;
    while let Some(task) = ready.pop() {
        sum = sum.wrapping_mul(31).wrapping_add(task.number + Rc::strong_count(&task) as u32);
        for follower in task.followers.borrow_mut().drain(..) {
            follower.waits_for.set(follower.waits_for.get() - 1);
            if follower.waits_for.get() == 0 {
                ready.push(follower);
            }
        }
    }
    sum
}

fn leaf(weight: u32) -> Rc<Leaf> {
    Rc::new(Leaf { weight: Cell::new(weight), parent: RefCell::default(), children: RefCell::default() })
}

fn tree(count: usize, state: &mut u32) -> u32 {
    let mut all = vec![leaf(1)];
    for _ in 1..count {
        let (parent, child) = (Rc::clone(&all[next(state) as usize % all.len()]), leaf(next(state) % 100));
        *child.parent.borrow_mut() = Rc::downgrade(&parent);
        parent.children.borrow_mut().push(Rc::clone(&child));
        all.push(child);
    }
    for node in &all {
        let (mut above, mut share) = (node.parent.borrow().upgrade(), node.weight.get() / 2);
        while let Some(parent) = above {
            parent.weight.set(parent.weight.get().wrapping_add(share));
            share /= 2;
            above = parent.parent.borrow().upgrade();
        }
    }
    fn sum(node: &Leaf, depth: u32) -> u32 {
        let own = node.weight.get() ^ depth;
        node.children.borrow().iter().fold(own, |total, child| total.rotate_left(3) ^ sum(child, depth + 1))
    }
    sum(&all[0], 0)
}

fn run(rounds: u32) -> u32 {
    let mut state = 1;
    (0..rounds).fold(0, |sum, _| sum.rotate_left(7) ^ order(700, &mut state) ^ tree(500, &mut state))
}

program!(run(45));
