//! One list of changes laid over another: what remains, refusals, and the laws of document 02, S-12.

use super::questions::Asked;
use crate::calls;
use crate::counts::Counts;
use crate::faults::repeat_nodes;
use crate::inputs::Case;
use crate::random::Random;
use crate::trace;

type List = (Vec<u16>, Vec<u8>);

/// Buffers that always suffice.
const ROOM: (usize, usize) = (64, 64);

pub fn round(random: &mut Random, counts: &mut Counts) {
    let most = *random.pick(&[3, 9, 40, 200, 65_535]);
    let [a, b, c] = [0; 3].map(|_| list(most, random));
    trace::say(format!("lists {:?}, {:?}, {:?}", a, b, c));
    counts.add(match lay(&a, &b, any_room(random), random) {
        Ok(laid) if laid.len() == 64 => "laid over: 64 remain".to_string(),
        Ok(_) => "laid over".to_string(),
        Err(number) => format!("laid over: refused {}", number),
    });
    laws(&a, &b, &c, random);
    on_a_changed_plan(&Case::random(30, random), random, counts);
}

/// A list of nodes up to `most`, with repeats; seldom of two lengths or too long.
pub fn list(most: usize, random: &mut Random) -> List {
    let m = *random.pick(&[0, 1, 2, 5, 20, 40, 63, 64, 64, 65]);
    let nodes: Vec<u16> = (0..m).map(|_| random.between(0, most) as u16).collect();
    let other = random.below(20) == 0;
    (nodes, random.bytes(if other { m + 1 } else { m }))
}

fn any_room(random: &mut Random) -> (usize, usize) {
    match random.below(3) {
        0 => (random.below(70), random.below(70)),
        _ => ROOM,
    }
}

pub fn lay(lower: &List, upper: &List, room: (usize, usize), random: &mut Random) -> Result<Vec<(u16, u8)>, u32> {
    calls::lay_over((&lower.0, &lower.1), (&upper.0, &upper.1), room, random)
}

/// What the library hands back, as a list to lay on.
fn laid(lower: &List, upper: &List, random: &mut Random) -> Option<List> {
    lay(lower, upper, ROOM, random).ok().map(|laid| laid.into_iter().unzip())
}

/// "Where neither 12 nor 22 occurs, laying over is associative, the empty list on either side gives the other's superseded
/// form .., and so does a list over itself, and two lists that share no node may be swapped."
fn laws(a: &List, b: &List, c: &List, random: &mut Random) {
    let left = laid(a, b, random).and_then(|ab| laid(&ab, c, random));
    let right = laid(b, c, random).and_then(|bc| laid(a, &bc, random));
    assert_eq!(left, right, "associative, refused or not");
    let none: List = (Vec::new(), Vec::new());
    let superseded = laid(&none, a, random);
    assert_eq!(laid(a, &none, random), superseded, "the empty list on either side");
    assert_eq!(laid(a, a, random), superseded, "a list over itself");
    if !a.0.iter().any(|node| b.0.contains(node)) {
        assert_eq!(laid(a, b, random), laid(b, a, random), "lists that share no node");
    }
}

/// "A question with the second on the plan changed by the first has the state of a question with the second laid over the
/// first on the plan itself, each on tables built from its own plan and left alone." Parts and links may differ.
fn on_a_changed_plan(case: &Case, random: &mut Random, counts: &mut Counts) {
    let [first, second] = [0; 2].map(|_| {
        let m = random.below(40);
        let (mut nodes, mut labels) = case.list(m, random);
        repeat_nodes(&mut nodes, &mut labels, case.k, random);
        (nodes, labels)
    });
    let mut altered = case.clone();
    first.0.iter().zip(&first.1).for_each(|(&v, &label)| altered.plan[12 + v as usize] = label);
    let over = match laid(&first, &second, random) {
        Some(over) => over,
        None => return,
    };
    let then = Asked::new(altered, random).ask(&second.0, &second.1, random);
    let told = Asked::new(case.clone(), random).ask(&over.0, &over.1, random);
    assert_eq!((then.state, then.yes), (told.state, told.yes), "the state on the changed plan");
    let same = (then.parts, then.links) == (told.parts, told.links);
    counts.add(format!("on a changed plan: {} parts and links", if same { "the same" } else { "other" }));
}
