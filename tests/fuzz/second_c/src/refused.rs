//! What stands beside a refusal's number and place.

use codeplug::c::{self, *};
use obcf_second::record::NO_CONTACT;
use obcf_second::Refusal;

/// An answer that can be made of a refusal alone.
pub trait FromRefusal {
    fn refused(refusal: Refusal) -> Self;
}

macro_rules! zeros {
    ($($answer:ident)*) => { $(
        impl FromRefusal for $answer {
            fn refused(Refusal { number, place }: Refusal) -> Self {
                $answer { number, place, ..Default::default() }
            }
        }
    )* };
}

zeros! { ValidateAnswer HeaderAnswer BankAnswer BankEntryAnswer EncodeAnswer DecodeAnswer HistoryAnswer }

impl FromRefusal for c::Refusal {
    fn refused(Refusal { number, place }: Refusal) -> Self {
        c::Refusal { number, place }
    }
}

impl FromRefusal for ContactAnswer {
    fn refused(Refusal { number, place }: Refusal) -> Self {
        ContactAnswer { number, place, values: ContactValues { mode: 1, ..Default::default() } }
    }
}

impl FromRefusal for ChannelAnswer {
    fn refused(Refusal { number, place }: Refusal) -> Self {
        let common = ChannelCommon { receive_only: 1, ..Default::default() };
        let info = ChannelInfo { contact: NO_CONTACT, ..Default::default() };
        ChannelAnswer { number, place, common, info }
    }
}
