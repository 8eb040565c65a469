//! Lines of requests in, fields of answers out, in the words of document 01's program.

use crate::number::number;
use ombykape::{Outcome, Refusal, Request};

/// The bytes of a line, at most, its newline not counted.
pub const LINE_MOST: usize = 64;

/// What a bad line is answered.
pub const BAD_LINE: &str = "? badline 0";

/// The member and the request of a line `MEMBER put K V`, `MEMBER get K` or `MEMBER del K`, its fields parted by single blanks.
pub fn parse(line: &[u8]) -> Option<(u64, Request)> {
    if line.len() > LINE_MOST {
        return None;
    }
    let fields: Vec<&str> = std::str::from_utf8(line).ok()?.split(' ').collect();
    let (member, command, numbers) = match fields[..] {
        [member, command, ref numbers @ ..] => (number(member)?, command, numbers),
        _ => return None,
    };
    let request = match (command, numbers) {
        ("put", [key, value]) => Request::Put(number(key)?, number(value)?),
        ("get", [key]) => Request::Fetch(number(key)?),
        ("del", [key]) => Request::Delete(number(key)?),
        _ => return None,
    };
    Some((member, request))
}

/// The fields of an answer: command, answer, events.
pub fn fields(request: Request, outcome: Result<Outcome, Refusal>, events: u64) -> String {
    let command = match request {
        Request::Put(..) => "put",
        Request::Fetch(_) => "get",
        Request::Delete(_) => "del",
    };
    let answer = match outcome {
        Ok(Outcome::New) => "new".to_string(),
        Ok(Outcome::Replaced) => "replaced".to_string(),
        Ok(Outcome::Removed) => "removed".to_string(),
        Ok(Outcome::Absent) => "absent".to_string(),
        Ok(Outcome::Found(value)) => format!("found:{value}"),
        Ok(unnamed) => format!("{unnamed:?}").to_lowercase(),
        Err(refusal) => format!("refused:{}", refusal.number()),
    };
    format!("{command} {answer} {events}")
}

#[cfg(test)]
mod tests {
    use super::{fields, parse};
    use ombykape::{Outcome, Refusal, Request};

    #[test]
    fn a_line_names_a_member_and_a_request() {
        assert_eq!(parse(b"3 put 7 70"), Some((3, Request::Put(7, 70))));
        assert_eq!(parse(b"1 get 0x10"), Some((1, Request::Fetch(16))));
        assert_eq!(parse(b"16 del 8"), Some((16, Request::Delete(8))));
    }

    #[test]
    fn any_other_line_is_bad() {
        let bad: [&[u8]; 10] = [
            b"",
            b"put 7 70",
            b"1 put 7",
            b"1 get 7 70",
            b"1  get 7",
            b"1 get 7 ",
            b" 1 get 7",
            b"1 get 7\r",
            b"1 fetch 7",
            b"1 get \xff",
        ];
        for line in bad {
            assert_eq!(parse(line), None, "{line:?}");
        }
        assert_eq!(parse(format!("1 get {:060}", 7).as_bytes()), None);
        assert_eq!(parse(format!("1 get {:058}", 7).as_bytes()), Some((1, Request::Fetch(7))));
    }

    #[test]
    fn an_answer_has_the_fields_of_document_01() {
        assert_eq!(fields(Request::Put(7, 70), Ok(Outcome::New), 7), "put new 7");
        assert_eq!(fields(Request::Fetch(7), Ok(Outcome::Found(70)), 0), "get found:70 0");
        assert_eq!(fields(Request::Delete(8), Ok(Outcome::Absent), 0), "del absent 0");
        assert_eq!(fields(Request::Put(1, 1), Err(Refusal::NoRoom), 0), "put refused:5 0");
    }
}
