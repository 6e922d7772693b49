//! "An E-telegram has 9 to 1,024 octets; octets 1-6 are carried unread, 7-8 are the code, 9 the order or
//! status."

use crate::refusal::Refusal;

/// "The report to a request has the code plus 0A00."
const TO_REPORT: u16 = 0x0A00;

/// The report with remedy texts, "code 8A08".
pub(crate) const REMEDIES: u16 = 0x8A08;

/// The longest telegram of a code; C-11: "For this code only, the limit behind 21 becomes 2,110 octets."
#[inline]
pub(crate) fn limit_of(code: u16) -> usize {
    match code {
        REMEDIES => 2_110,
        _ => 1_024,
    }
}

/// "Request codes (source 002, hexadecimal)".
#[rustfmt::skip]
#[inline]
fn is_request(code: u16) -> bool {
    matches!(
        code,
        0x1007 | 0x1012 | 0x1013 | 0x1015 | 0x2001 | 0x4002 | 0x4007 | 0x4009 | 0x4011
            | 0x4013 | 0x4015 | 0x4020 | 0x4047 | 0x5003 | 0x5007 | 0x5009 | 0x6002 | 0x7001
            | 0x8002 | 0x8003 | 0x8007 | 0x8008 | 0x8009 | 0x8010 | 0x9001
    )
}

/// "Reading gives the code, request or report, and octet 9."
#[derive(Debug, Clone, Copy, PartialEq, Eq)]
pub struct EReading {
    /// Octets 7-8 as they stand, in a report too.
    pub code: u16,
    /// Whether the code is that of a report.
    pub report: bool,
    /// Octet 9, the order or status.
    pub status: u8,
}

/// Reads an E-telegram. Refusals 21, 22.
pub fn e_read(telegram: &[u8]) -> Result<EReading, Refusal> {
    let [_, _, _, _, _, _, c0, c1, status, ..] = *telegram else {
        return Err(Refusal::plain(21));
    };
    let code = u16::from_be_bytes([c0, c1]);
    if telegram.len() > limit_of(code) {
        return Err(Refusal::plain(21));
    }
    let report = !is_request(code);
    if report && !code.checked_sub(TO_REPORT).is_some_and(is_request) {
        return Err(Refusal::plain(22));
    }
    Ok(EReading {
        code,
        report,
        status,
    })
}

/// "Answering takes a request, a new 6-octet head and a status, and writes 9 octets; the rest of the
/// output stays." Refusals 21 to 25.
pub fn e_answer(telegram: &[u8], head: &[u8], status: u8, out: &mut [u8]) -> Result<(), Refusal> {
    let request = e_read(telegram)?;
    if request.report {
        return Err(Refusal::plain(23));
    }
    let head: &[u8; 6] = head.try_into().map_err(|_| Refusal::plain(24))?;
    let Some((answer, _)) = out.split_first_chunk_mut::<9>() else {
        return Err(Refusal::plain(25));
    };
    let [c0, c1] = request.code.wrapping_add(TO_REPORT).to_be_bytes();
    let [h0, h1, h2, h3, h4, h5] = *head;
    *answer = [h0, h1, h2, h3, h4, h5, c0, c1, status];
    Ok(())
}
