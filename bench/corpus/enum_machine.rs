//! Terms as enums with boxes: derivatives, simplified by patterns, and evaluated; and a machine of enums with a stack.
#[macro_use]
mod program;

#[derive(Clone, PartialEq)]
enum Term { Number(i32), Name, Sum(Box<Term>, Box<Term>), Product(Box<Term>, Box<Term>), Power(Box<Term>, u8) }
use Term::*;

fn sum(a: Term, b: Term) -> Term {
    match (a, b) {
        (Number(0), term) | (term, Number(0)) => term,
        (Number(a), Number(b)) => Number(a.wrapping_add(b)),
        (a, b) if a == b => product(Number(2), a),
        (a, b) => Sum(Box::new(a), Box::new(b)),
    }
}

fn product(a: Term, b: Term) -> Term {
    match (a, b) {
        (Number(0), _) | (_, Number(0)) => Number(0),
        (Number(1), term) | (term, Number(1)) => term,
        (Number(a), Number(b)) => Number(a.wrapping_mul(b)),
        (Number(a), Product(b, c)) if matches!(*b, Number(_)) => product(product(Number(a), *b), *c),
        (a, b) => Product(Box::new(a), Box::new(b)),
    }
}

fn derived(term: &Term) -> Term {
    match term {
        Number(_) => Number(0),
        Name => Number(1),
        Sum(a, b) => sum(derived(a), derived(b)),
        Product(a, b) => sum(product(derived(a), (**b).clone()), product((**a).clone(), derived(b))),
        Power(a, 1) => derived(a),
        Power(a, n) => product(product(Number(i32::from(*n)), Power(a.clone(), n - 1)), derived(a)),
    }
}

enum Step { Push(i32), Load, Add, Multiply, Raise(u8) }

fn compile(term: &Term, code: &mut Vec<Step>) {
    match term {
        Number(n) => code.push(Step::Push(*n)),
        Name => code.push(Step::Load),
        Sum(a, b) | Product(a, b) => {
            compile(a, code);
            compile(b, code);
            code.push(if matches!(term, Sum(..)) { Step::Add } else { Step::Multiply });
        }
        Power(a, n) => {
            compile(a, code);
            code.push(Step::Raise(*n));
        }
    }
}

fn execute(code: &[Step], x: i32, stack: &mut Vec<i32>) -> Option<i32> {
    for step in code {
        let value = match *step {
            Step::Push(n) => n,
            Step::Load => x,
            Step::Add => stack.pop()?.wrapping_add(stack.pop()?),
            Step::Multiply => stack.pop()?.wrapping_mul(stack.pop()?),
            Step::Raise(n) => stack.pop()?.wrapping_pow(u32::from(n)),
        };
        stack.push(value);
    }
    stack.pop()
}

fn run(rounds: i32) -> u32 {
    let (mut total, mut stack) = (0u32, Vec::new());
    for round in 0..rounds {
        let inner = sum(Power(Box::new(Name), 3), product(Number(round), Name));
        let mut term = product(Power(Box::new(inner), 4), sum(Name, Number(round % 7)));
        for _ in 0..3 {
            term = derived(&term);
            let mut code = Vec::new();
            compile(&term, &mut code);
            for x in -8..8 {
                total = total.wrapping_mul(31).wrapping_add(execute(&code, x, &mut stack).unwrap_or(1) as u32);
            }
        }
    }
    total
}

program!(run(150));
