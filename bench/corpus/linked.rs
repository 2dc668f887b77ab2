//! A list of boxes: pushed, popped, turned round, merged and sorted, cut in two, and walked by an iterator of its own.
#[macro_use]
mod program;

type Link = Option<Box<Node>>;

struct Node { value: u32, next: Link }

#[derive(Default)]
struct List { head: Link, length: usize }
struct Walk<'a>(Option<&'a Node>);

impl<'a> Iterator for Walk<'a> {
    type Item = u32;

    fn next(&mut self) -> Option<u32> {
        let node = self.0?;
        self.0 = node.next.as_deref();
        Some(node.value)
    }
}

impl List {
    fn push(&mut self, value: u32) {
        self.head = Some(Box::new(Node { value, next: self.head.take() }));
        self.length += 1;
    }

    fn pop(&mut self) -> Option<u32> {
        let node = self.head.take()?;
        *self = List { head: node.next, length: self.length - 1 };
        Some(node.value)
    }

    fn walk(&self) -> Walk<'_> {
        Walk(self.head.as_deref())
    }

    fn turn(&mut self) {
        let (mut turned, mut rest) = (None, self.head.take());
        while let Some(mut node) = rest {
            rest = std::mem::replace(&mut node.next, turned);
            turned = Some(node);
        }
        self.head = turned;
    }
}

fn merged(mut a: Link, mut b: Link) -> Link {
    let mut head = None;
    let mut last = &mut head;
    loop {
        let from = match (&a, &b) {
            (Some(one), Some(two)) if one.value <= two.value => &mut a,
            (Some(_), None) => &mut a,
            (None, None) => return head,
            _ => &mut b,
        };
        if let Some(mut node) = from.take() {
            *from = node.next.take();
            last = &mut last.insert(node).next;
        }
    }
}

fn sorted(mut list: Link, length: usize) -> Link {
    let mut at = &mut list;
    for _ in 0..length / 2 {
        at = &mut at.as_mut().expect("it is long enough").next;
    }
    let second = at.take();
    if length < 2 { merged(list, second) } else { merged(sorted(list, length / 2), sorted(second, length - length / 2)) }
}

fn run(rounds: u32) -> u32 {
    let (mut list, mut state, mut sum) = (List::default(), 1u32, 0u32);
    for round in 0..rounds {
        while list.length < 1000 {
            state = state.wrapping_mul(1664525).wrapping_add(1013904223);
            list.push(state >> 10);
        }
        list.head = sorted(list.head.take(), list.length);
        sum = list.walk().zip(list.walk().skip(1)).fold(sum, |sum, (a, b)| sum.wrapping_mul(31) ^ (b - a));
        list.turn();
        (0..700 + round % 300).filter_map(|_| list.pop()).for_each(|value| sum = sum.rotate_left(1) ^ value);
    }
    sum
}

program!(run(70));
