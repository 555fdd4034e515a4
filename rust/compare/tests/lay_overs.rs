//! One list of changes laid over another (document 02, S-4 and S-12).

use compare::calls;
use compare::counts::Counts;
use compare::random::Random;
use compare::rounds::lay_overs::round;

#[test]
fn random_lists() {
    let (random, counts) = (&mut Random::new(2201), &mut Counts::default());
    for _ in 0..3_000 {
        round(random, counts);
    }
    for wanted in ["on a changed plan: the same parts and links", "on a changed plan: other parts and links"] {
        assert!(counts.of(wanted) > 3, "{}: {}", wanted, counts.of(wanted));
    }
    for wanted in
        ["laid over", "laid over: 64 remain", "laid over: refused 11", "laid over: refused 12", "laid over: refused 22"]
    {
        assert!(counts.of(wanted) > 3, "{}: {}", wanted, counts.of(wanted));
    }
}

#[test]
fn limits() {
    let random = &mut Random::new(2202);
    let nodes: Vec<u16> = (0..128).map(|v| 511 * v).collect();
    let labels = random.bytes(128);
    let (low, high) = ((&nodes[..64], &labels[..64]), (&nodes[64..], &labels[64..]));
    let room = (64, 64);
    // 64 over 64: disjoint 22, the same nodes 64
    assert_eq!(calls::lay_over(low, high, room, random), Err(22));
    assert_eq!(calls::lay_over(low, (&nodes[..64], &labels[64..]), room, random).map(|laid| laid.len()), Ok(64));
    assert_eq!(calls::lay_over(low, (&nodes[64..65], &labels[..1]), room, random), Err(22));
    assert_eq!(
        calls::lay_over((&nodes[..63], &labels[..63]), (&nodes[64..65], &labels[..1]), room, random).map(|l| l.len()),
        Ok(64)
    );
    // 65 entries of three nodes: 12, for either list, before 22 and 11
    let three = [7, 8, 9].repeat(22);
    let many: (&[u16], &[u8]) = (&three[..65], &labels[..65]);
    assert_eq!(calls::lay_over(many, high, (0, 0), random), Err(12));
    assert_eq!(calls::lay_over(low, many, (0, 0), random), Err(12));
    assert_eq!(calls::lay_over((&nodes[..2], &labels[..1]), high, room, random), Err(12));
    // 22 before 11; 11 for either buffer
    assert_eq!(calls::lay_over(low, high, (0, 0), random), Err(22));
    assert_eq!(calls::lay_over(low, low, (63, 64), random), Err(11));
    assert_eq!(calls::lay_over(low, low, (64, 63), random), Err(11));
    assert_eq!(calls::lay_over((&[], &[]), (&[], &[]), (0, 0), random), Ok(vec![]));
    // the last entry of a list holds, and the upper list's
    let laid = calls::lay_over((&[5, 2, 5], &[1, 2, 3]), (&[9, 2, 9], &[4, 6, 5]), room, random);
    assert_eq!(laid, Ok(vec![(2, 6), (5, 3), (9, 5)]));
}
