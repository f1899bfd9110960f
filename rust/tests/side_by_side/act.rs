//! A call, or a text that is typed in: what a store is asked one after the other.

use std::fmt;

use zelmotar::raw;
use zelmotar_model::make;
use zelmotar_model::random::Random;

/// What a store is asked.
#[derive(Clone, PartialEq, Eq)]
pub enum Act {
    /// A call, in its four words.
    Call([u32; 4]),
    /// A register, and the text to be typed into it.
    Text(usize, Vec<u8>),
}

/// Calls, and now and then a text, for a register that calls use too as a rule.
pub fn acts(random: &mut Random, count: usize) -> Vec<Act> {
    let calls = make::calls(random, count);
    let calls = calls.chunks(4).map(|call| call.try_into().expect("a call has four words"));
    calls
        .map(|call| match random.one_in(6) {
            true => Act::Text(random.pick(&[0, 1, 2, 3, 15, 16]), text(random)),
            false => Act::Call(call),
        })
        .collect()
}

/// A text, spoilt now and then. Short ones are the most frequent, so that there is room for some.
fn text(random: &mut Random) -> Vec<u8> {
    let mut text = match random.below(4) {
        0 => make::text(random),
        1 => b"7".to_vec(),
        2 => b"(0) 65".to_vec(),
        _ => b"() (1 (2))".to_vec(),
    };
    match random.below(9) {
        0 => make::spoil_text(random, &mut text),
        1 => make::cut_text(random, &mut text),
        _ => {}
    }
    text
}

impl Act {
    /// The second word of a call or the register of a text, which is the register that is set if one is.
    pub fn sets(&self) -> usize {
        match self {
            Act::Call(call) => call[1] as usize,
            Act::Text(register, _) => *register,
        }
    }

    /// Asks the library: the status and the value of the call or of the text, and the new `top`.
    ///
    /// # Errors
    ///
    /// A sentence, if a batch of the call alone is refused.
    pub fn ask(&self, words: &mut [u32], top: &mut usize) -> Result<(u32, usize), String> {
        match self {
            Act::Call(call) => {
                let mut answer = [7; 2];
                let reply = raw::run(words, *top, call, &mut answer);
                *top = reply.top;
                match reply.status {
                    0 => Ok((answer[0], answer[1] as usize)),
                    _ => Err(format!("{self:?}: a batch is refused: {reply:?}")),
                }
            }
            Act::Text(register, text) => {
                let typed = raw::type_in(words, *top, *register, text);
                *top = typed.top;
                Ok((typed.status, typed.value))
            }
        }
    }
}

/// The call's words, or the register with the text in quotes.
impl fmt::Debug for Act {
    fn fmt(&self, f: &mut fmt::Formatter<'_>) -> fmt::Result {
        match self {
            Act::Call(call) => call.fmt(f),
            Act::Text(register, text) => write!(f, "type {register} `{}`", text.escape_ascii()),
        }
    }
}
