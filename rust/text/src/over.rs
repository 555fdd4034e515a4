//! `whatif-text over`: the list of one question laid over that of another, as a question to paste.

use crate::input::Input;
use crate::json::Object;
use crate::outcome::Failure;
use crate::questions::Change;
use crate::sentences;
use whatif::sizes::MAX_CHANGES;

/// By the library. A list in which nothing remains is the word `none`.
pub fn of_questions(input: &Input, lower: usize, upper: usize, json: bool) -> Result<String, Failure> {
    let lists = [input.question(lower)?, input.question(upper)?];
    let [(low_nodes, low_labels), (high_nodes, high_labels)] =
        lists.map(|list| -> (Vec<u16>, Vec<u8>) { list.iter().copied().unzip() });
    let (mut nodes, mut labels) = ([0; MAX_CHANGES], [0; MAX_CHANGES]);
    let count = whatif::lay_over((&low_nodes, &low_labels), (&high_nodes, &high_labels), &mut nodes, &mut labels)
        .map_err(Failure::refused)?;
    let laid: Vec<Change> = nodes.into_iter().zip(labels).take(count).collect();
    if json {
        return Ok(Object::new()
            .count("lower", lower)
            .count("upper", upper)
            .changes("changes", &laid, &input.names)
            .line());
    }
    let [low, high] = [(lower, lists[0]), (upper, lists[1])].map(|(number, list)| sentences::question(number, list));
    Ok(format!("# {}\n# laid over {}\n{}\n", high, low, sentences::changes(&laid)))
}
