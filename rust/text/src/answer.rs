//! `whatif-text answer`: a sentence for each question.

use crate::input::Input;
use crate::json::Object;
use crate::loaded::Loaded;
use crate::outcome::{Failure, Made};
use crate::progress::Progress;
use crate::sentences;

/// Each question is asked in the library's session. A refused one is reported in its place.
pub fn all(input: &Input, json: bool) -> Result<Made, Failure> {
    let mut loaded = Loaded::of(input)?;
    let mut progress = Progress::of(input.questions.len(), "questions");
    let (mut text, mut refused) = (String::new(), false);
    for (i, question) in input.questions.iter().enumerate() {
        progress.done(i);
        let asked = loaded.ask(question);
        refused |= asked.is_err();
        text += &match (json, asked) {
            (true, asked) => {
                let object = Object::new().count("question", i + 1).changes("changes", question, &input.names);
                asked
                    .map_or_else(
                        |failure| object.clone().failure(&failure),
                        |asked| object.clone().answer(&asked.answer, &input.names),
                    )
                    .line()
            }
            (false, Ok(asked)) => {
                format!(
                    "{}: {}\n",
                    sentences::question(i + 1, question),
                    sentences::answer(&asked.answer, &input.names)
                )
            }
            (false, Err(failure)) => format!("{}: {}\n", sentences::question(i + 1, question), failure.what()),
        };
    }
    Ok(Made::with_refusals(text, refused))
}
