//! Objects behind `Box<dyn Trait>`: shapes that are asked for areas, moved, split and collected, and a chain of filters.
#[macro_use]
mod program;

trait Shape {
    fn area(&self) -> i64;
    fn moved(&mut self, x: i32, y: i32);
    fn covers(&self, x: i32, y: i32) -> bool;
    fn half(&self) -> Option<Box<dyn Shape>> {
        None
    }
}

struct Square { x: i32, y: i32, side: i32 }
struct Circle { x: i32, y: i32, radius: i32 }
struct Group { parts: Vec<Box<dyn Shape>> }

impl Shape for Square {
    fn area(&self) -> i64 {
        i64::from(self.side) * i64::from(self.side)
    }
    fn moved(&mut self, x: i32, y: i32) {
        self.x += x;
        self.y += y;
    }
    fn covers(&self, x: i32, y: i32) -> bool {
        (0..self.side).contains(&(x - self.x)) && (0..self.side).contains(&(y - self.y))
    }
    fn half(&self) -> Option<Box<dyn Shape>> {
        (self.side > 2).then(|| Box::new(Square { x: self.x, y: self.y, side: self.side / 2 }) as Box<dyn Shape>)
    }
}

impl Shape for Circle {
    fn area(&self) -> i64 {
        i64::from(self.radius) * i64::from(self.radius) * 355 / 113
    }
    fn moved(&mut self, x: i32, y: i32) {
        self.x += x;
        self.y -= y;
    }
    fn covers(&self, x: i32, y: i32) -> bool {
        (x - self.x).pow(2) + (y - self.y).pow(2) <= self.radius.pow(2)
    }
}

impl Shape for Group {
    fn area(&self) -> i64 {
        self.parts.iter().map(|part| part.area()).sum()
    }
    fn moved(&mut self, x: i32, y: i32) {
        self.parts.iter_mut().for_each(|part| part.moved(y, x));
    }
    fn covers(&self, x: i32, y: i32) -> bool {
        self.parts.iter().any(|part| part.covers(x, y))
    }
    fn half(&self) -> Option<Box<dyn Shape>> {
        let parts: Vec<_> = self.parts.iter().filter_map(|part| part.half()).collect();
        (!parts.is_empty()).then(|| Box::new(Group { parts }) as Box<dyn Shape>)
    }
}

fn shape(state: u32, depth: u32) -> Box<dyn Shape> {
    let (x, y, size) = ((state >> 8 & 63) as i32, (state >> 14 & 63) as i32, (state >> 20 & 15) as i32 + 1);
    match state >> 24 & 3 {
        0 | 1 => Box::new(Square { x, y, side: size }),
        2 if depth > 0 => Box::new(Group { parts: (1..5).map(|i| shape(state.wrapping_mul(77777 + i), depth - 1)).collect() }),
        _ => Box::new(Circle { x, y, radius: size }),
    }
}

fn run(rounds: u32) -> u32 {
    let mut sum = 0u32;
    for round in 0..rounds {
        let mut shapes: Vec<Box<dyn Shape>> = (0..60).map(|i| shape((round * 60 + i).wrapping_mul(2246822519), 3)).collect();
        let halves: Vec<_> = shapes.iter().filter_map(|shape| shape.half()).collect();
        shapes.extend(halves);
        for (i, shape) in shapes.iter_mut().enumerate() {
            shape.moved(i as i32 % 5 - 2, round as i32 % 7);
        }
        for point in 0..40 {
            let (x, y) = (point * 7 % 64, point * 11 % 64);
            sum = sum.wrapping_mul(3).wrapping_add(shapes.iter().filter(|shape| shape.covers(x, y)).count() as u32);
        }
        sum ^= shapes.iter().map(|shape| shape.area()).sum::<i64>() as u32;
    }
    sum
}

program!(run(100));
