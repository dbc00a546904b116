//! How often each thing that document 01 speaks of is met in the lists of so many calls.

use crate::generate::generate;
use std::collections::BTreeMap;
use std::io::{self, Write};

/// A list's portion, as tests/model/run.sh takes it.
pub const PORTION: u64 = 2_500;

/// Met less often than this in 50,000 calls is rare.
const RARE: u64 = 10;

pub fn coverage(seed: u64, calls: u64, out: &mut dyn Write) -> io::Result<bool> {
    let mut met: BTreeMap<String, u64> = points().into_iter().map(|point| (point, 0)).collect();
    let known = met.len();
    let mut made = 0;
    while made < calls {
        let portion = PORTION.min(calls - made);
        let replay = generate(seed + made / PORTION, portion, &mut io::sink(), &mut io::sink())?;
        for (what, count) in replay.chip.met.borrow().iter() {
            *met.entry(what.clone()).or_insert(0) += count;
        }
        made += portion;
    }
    let rare = RARE * calls / 50_000;
    let mut rares = 0;
    for (what, count) in &met {
        let mark = if *count < rare { "  rare" } else { "" };
        rares += u32::from(*count < rare);
        writeln!(out, "{count:8}  {what}{mark}")?;
    }
    writeln!(out, "{} things, {rares} of them fewer than {rare} times; {} not in the list of points", met.len(), met.len() - known)?;
    Ok(rares == 0)
}

/// Everything that must be met.
fn points() -> Vec<String> {
    let mut all: Vec<String> = POINTS.lines().map(str::trim).filter(|line| !line.is_empty()).map(String::from).collect();
    let mut add = |text: String| all.push(text);
    for code in 0..8 {
        for state in ["Idle", "Suspended", "Active, not begun", "Active, begun", "Active, SUSPEND waits"] {
            add(format!("CU code {code} in {state}"));
        }
        for state in ["Idle", "Suspended", "No Resources", "Ready", "Ready, held", "Ready, begun", "Ready, SUSPEND waits"] {
            add(format!("RU code {code} in {state}"));
        }
        add(format!("begin of command {code}"));
        add(format!("end of command {code}, {}", if code == 6 { "not OK" } else { "OK" }));
        add(format!("abort of command {code} before the end"));
    }
    for state in ["Idle", "Suspended", "Active, not begun", "Active, begun", "Active, SUSPEND waits"] {
        add(format!("resetting attention, CU {state}"));
    }
    for state in ["Idle", "Suspended", "No Resources", "Ready", "Ready, held", "Ready, begun", "Ready, SUSPEND waits"] {
        add(format!("resetting attention, RU {state}"));
    }
    for command in [2, 4] {
        add(format!("end of command {command}, not OK"));
    }
    for bit in 0..64 {
        add(format!("bit {bit} passes a group"));
        add(format!("bit {bit} drops a group"));
    }
    for whose in ["Transmit", "frame"] {
        add(format!("{whose}: a header over the end of memory"));
        add(format!("{whose}: a buffer that ends at the end of memory"));
        add(format!("{whose}: a buffer over the end of memory"));
        add(format!("{whose}: a buffer one byte over the end of memory"));
        add(format!("{whose}: a buffer that begins at the last byte of memory"));
    }
    for event in ["CX", "FR", "CNA", "RNR"] {
        add(format!("{event} acknowledged"));
    }
    for call in ["attention", "arrival", "turn", "run"] {
        add(format!("refusal 1 of {call}"));
        add(format!("refusal 4 of {call}"));
    }
    for number in [1, 3, 4] {
        add(format!("refusal {number} of a frame that would be dropped"));
    }
    for count in 0..16 {
        add(format!("Configure of count {count}"));
        add(format!("report with bit {count}"));
        add(format!("report of bit {count} alone"));
    }
    for field in [8, 10, 12, 14] {
        add(format!("counter +{field}"));
        add(format!("counter +{field} from FFFFh to 0"));
    }
    for verdict in 0..4 {
        add(format!("arrival of verdict {verdict}"));
    }
    for length in [0, 1, 2048] {
        add(format!("arrival of {length} bytes"));
    }
    for kind in ["Good", "Crc", "Misaligned", "short Good", "short Crc", "short Misaligned"] {
        add(format!("held: {kind}"));
        add(format!("overrun: {kind}"));
        if kind != "Good" {
            add(format!("dropped in Ready: {kind}"));
            add(format!("dropped in No Resources, save-bad set: {kind}"));
            add(format!("dropped in No Resources, save-bad clear: {kind}"));
        }
    }
    for reason in ["too few bytes", "no match"] {
        for state in ["before the first attention", "Idle", "Suspended", "No Resources", "Ready", "over a held frame"] {
            add(format!("reason: {reason}, {state}"));
        }
    }
    for reason in ["too few bytes", "no match", "Idle", "Suspended"] {
        add(format!("reason: {reason}"));
        add(format!("reason: {reason}, bad too"));
    }
    for reason in ["too few bytes", "Idle", "Suspended", "bad"] {
        add(format!("reason: {reason}, promiscuous alone"));
    }
    for point in lengths() {
        add(point);
    }
    for status in ["A000", "8080", "8800", "8880", "8400", "8480", "8200", "8280", "8A00", "8A80", "8600", "8680"] {
        add(format!("stored {status}"));
    }
    all
}

/// What must be met with each address length and each location.
fn lengths() -> Vec<String> {
    let mut all = Vec::new();
    for length in 0..7 {
        all.push(format!("IA-Setup, length {length}"));
        all.push(format!("frame: no data, length {length}"));
        all.push(format!("Transmit: a header alone sent, length {length}, location 0"));
        for location in 0..2 {
            all.push(format!("Configure: length {length}, location {location}"));
            all.extend(HEADERS.iter().map(|what| format!("{what}, length {length}, location {location}")));
        }
    }
    for length in 1..7 {
        all.extend(ADDRESSES.iter().map(|what| format!("{what}, length {length}")));
    }
    for length in 2..7 {
        all.push(format!("dropped: own but for its last byte, length {length}"));
    }
    for phase in ["not begun", "at its buffers", "at its end"] {
        for change in ["a length below that of a held frame", "a length above that of a held frame"] {
            all.push(format!("Configure: {change}, {phase}"));
        }
        for change in ["location 1 under a held frame of 0", "location 0 under a held frame of 1"] {
            all.push(format!("Configure: {change}, {phase}"));
        }
    }
    all
}

/// By length and location.
const HEADERS: [&str; 13] = [
    "Transmit: one descriptor",
    "Transmit: several descriptors",
    "Transmit: others sent",
    "Transmit: 2,048 bytes sent",
    "Transmit fails: 2,048 passed by one",
    "arrival of one byte below its header",
    "arrival of its header alone",
    "arrival of one byte above its header",
    "frame: one buffer",
    "frame: several buffers",
    "frame: 2,048 bytes stored",
    "frame ends under another length",
    "frame ends under another location",
];

/// By length, where the address is judged.
const ADDRESSES: [&str; 7] = [
    "match: broadcast",
    "match: own",
    "match: by its bit",
    "dropped: broadcast disabled",
    "dropped: a group",
    "dropped: another's",
    "MC-Setup of addresses",
];

const POINTS: &str = "
    reset
    reset with a size that is not allowed
    reset with a frame held
    reset with a command begun
    refusal 1 goes before 3
    refusal 1 goes before 4
    refusal 3 goes before 4
    refusal 3 of arrival
    size altered under a running chip
    first attention
    first attention over a RESET bit
    resetting attention with events set
    attention with an edge
    attention without an edge
    an event acknowledged and raised in one attention
    an event raised again
    a word over the end of memory is read
    a word over the end of memory is written
    a block or descriptor is written over the SCB
    abort of command 4 before a buffer turn
    abort of command 4 before a failing end
    abort of a held frame before its begin
    abort of a held frame before its first buffer turn
    abort of a held frame before a later buffer turn
    abort of a held frame before its end
    abort of a held frame before its end, out of buffers
    turn before the first attention
    turn with no work
    turn, RU alone
    turn, CU alone
    turn, both: CU
    turn, both: RU
    run of budget 0
    run with a frame held
    run of both units
    run ends: no work
    run ends: a frame sent
    run ends: a frame sent, an edge
    run ends: an edge
    run ends: budget
    run ends: budget, with a frame sent or an edge
    run ends: before its budget
    run goes on behind a Transmit of no bytes
    end with I
    end with EL
    end with EL and S
    end with EL and a waiting SUSPEND
    end with S
    end with a waiting SUSPEND
    end with S and a waiting SUSPEND
    end that raises nothing
    a command's link is FFFFh
    a command's link is its own block
    IA-Setup: an address over the end of memory
    Configure: a shorter length, the filter is not empty
    Configure: a greater length, the filter is not empty
    Configure fails: length 7
    Configure fails: loopback, bit 6
    Configure fails: loopback, bit 7
    Configure alters save-bad under a held frame
    MC-Setup with a remainder
    MC-Setup with bits above the count
    MC-Setup of count 0
    MC-Setup of length 0
    MC-Setup of less than an address
    MC-Setup of 1 address
    MC-Setup of 2 to 16
    MC-Setup of 17
    MC-Setup of 30
    MC-Setup of others above 17
    MC-Setup of as many as there can be
    MC-Setup: a list over the end of memory
    MC-Setup: a list more than once around memory
    MC-Setup: a list over its own status
    MC-Setup: a bit by an address without its low bit alone
    MC-Setup empties the filter
    MC-Setup empties the filter by length 0 alone
    MC-Setup clears bits and sets others
    MC-Setup sets all bits
    Transmit without a descriptor
    Transmit without a descriptor, of no bytes
    Transmit in descriptors, of no bytes
    Transmit: count 0
    Transmit: count 0 at 2,048
    Transmit: a type over the end of memory
    Transmit: EOF in the 64th descriptor
    Transmit: EOF and next FFFFh
    Transmit fails: 2,048 passed
    Transmit fails: 2,048 passed, with EOF
    Transmit fails: FFFFh before EOF
    Transmit fails: no EOF in 64 descriptors
    Transmit failed, with a report
    Transmit: not sent
    Transmit: sent
    Transmit: sent, with a report
    Transmit: no bytes, OK
    lost in No Resources, save-bad set
    lost in No Resources, save-bad clear
    overrun: bad, save-bad set
    overrun: bad, save-bad clear
    reason: too few bytes, no match too
    reason: Idle, before the first attention
    reason: bad
    reason: bad, Ready
    reason: bad, No Resources
    dropped: broadcast disabled
    dropped: broadcast disabled, own all FFh
    dropped: broadcast disabled, listed
    dropped: broadcast disabled, its bit set
    dropped: a group whose bit is clear
    dropped: a group, the filter is empty
    dropped: by a bit that the list before had set
    dropped: by a bit that MC-Setup at length 0 has cleared
    dropped: listed without its low bit
    dropped: another's
    dropped: another's, its bit set
    match: promiscuous alone
    match: broadcast
    match: own
    match: own, a group's
    match: a listed group
    match: a group not listed, by a bit of another's
    match: by the bit of addresses without their low bit
    match: by a bit set under another length
    match: own, by its first bytes alone
    match: own, set under a shorter length
    match: broadcast, by its first bytes alone
    match: promiscuous alone, length 0
    dropped: length 0, broadcast enabled
    dropped: length 0, broadcast disabled
    dropped: length 0, the filter is not empty
    arrival one byte below the minimum
    arrival of just the minimum
    frame: a buffer of size 0
    frame: a buffer over the SCB
    frame: data ends in the EL buffer
    frame: data ends in the 64th buffer
    frame: data ends, next FFFFh
    frame: data fills its last buffer
    frame ends under another save-bad than at arrival
    out of buffers: first FFFFh
    out of buffers: next FFFFh
    out of buffers: after EL
    out of buffers: after 64
    not kept
    frame's end: Ready
    frame's end: Suspended by S
    frame's end: Suspended by a waiting SUSPEND
    frame's end: Suspended by S and a waiting SUSPEND
    frame's end: No Resources, out of buffers
    frame's end: No Resources, descriptor's EL
    frame's end: No Resources, buffer's EL
    frame's end: No Resources, both EL
    frame's end: No Resources over S
    frame's end: No Resources over a waiting SUSPEND
    a frame descriptor's link is FFFFh
    a frame descriptor's link is its own
    order: a CU abort writes what RU START reads
    order: an RU abort writes what CU START read
    order: a link lies over the SCB's status
    order: the next descriptor's +6 lies over the SCB's status
    order: the next descriptor's +6 lies over the status
    order: RSCERRS lies in the frame descriptor
    order: a buffer lies over its own descriptor
    order: MC-Setup's own status in its list
    order: a group by MC-Setup's own status in its list
    holding area altered while a frame is held
    outgoing area altered while a Transmit is begun
    block altered while its command is begun
    frame descriptor altered while a frame is held
";
