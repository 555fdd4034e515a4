//! `whatif-text robust`: how many wrong labels can lose the clearance, and an example. By `whatif_fewest`.

use crate::changeable::{Changeable, Limits};
use crate::input::Input;
use crate::mend::Subject;
use crate::outcome::Failure;
use crate::sentences::count;
use whatif::{Fewest, Want};

/// Of the plan as it is, or with a question's changes made.
pub fn of_plan(input: &Input, question: Option<usize>, limits: Limits, json: bool) -> Result<String, Failure> {
    let subject = Subject::of(input, question)?;
    let limited = Changeable::of(&subject.loaded, limits)?;
    let may = limited.may_change(&subject.loaded)?;
    let lost = subject.loaded.panel.fewest(Want::NotCleared, &may).map_err(Failure::refused)?;
    match json {
        true => Ok(object(&subject, &limited, &lost)),
        false => Ok(text(&subject, &limited, &lost)),
    }
}

fn object(subject: &Subject, limited: &Changeable, lost: &Fewest) -> String {
    let object = limited.fields(subject.fields()).truth("never_lost", *lost == Fewest::NoWay);
    let object = lost.least().into_iter().fold(object, |object, radius| object.number("radius", radius));
    let changes = lost.changes().into_iter();
    changes.fold(object, |object, list| object.changes("changes", list, &subject.loaded.names)).line()
}

fn text(subject: &Subject, limited: &Changeable, lost: &Fewest) -> String {
    let head = subject.head() + &limited.line(&subject.loaded);
    if *lost == Fewest::AsItIs {
        return head + "# there is no clearance to lose\n";
    }
    let said = match lost.least() {
        None => "no wrong labels lose the clearance".to_string(),
        Some(1) => "a single wrong label can lose the clearance".to_string(),
        Some(2) => format!("{}: 2 wrong labels can lose the clearance, and no fewer", stays("label is")),
        Some(least) => {
            let fewer = format!("{} are", count(least as usize - 1, "label"));
            format!("{}: {} wrong labels can lose the clearance, and no fewer", stays(&fewer), least)
        }
    };
    let by = "# this is the library's answer, by whatif_fewest\n";
    let example = match lost.changes() {
        Some(list) => format!("questions\n{}", subject.lines(list)),
        None => String::new(),
    };
    format!("{}# {}\n{}{}", head, said, by, example)
}

fn stays(wrong: &str) -> String {
    format!("whichever {} wrong, the plan stays cleared", wrong)
}
