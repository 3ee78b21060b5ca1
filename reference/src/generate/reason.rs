//! Every way in which a job is damaged on purpose.

use super::count::{Count, COUNTS};
use super::damage::unused::SORTS;
use super::random::Random;
use crate::table::*;

/// A reason for a refusal; the fields are command bytes, operand indices and counts.
#[derive(Clone, Copy, Debug, PartialEq, Eq, PartialOrd, Ord)]
pub enum Reason {
    // 1
    Empty,
    TooLong,
    TooLongAndBroken,
    // 2
    UnknownByte,
    UnknownLastByte,
    // 3
    CutOperands,
    CutInLowerGroup,
    CutOverCount(Count),
    // 4
    LowerGroup,
    LowerGroupOverCount,
    LowerGroupUndeclared,
    // 5
    OverCount(Count),
    OverCountUndeclared(Count),
    /// ARG and SPAN, or replies.
    OverCountRepeated(Count),
    // 6
    NodeBeforeFlow,
    HandlerBeforeBody(u8),
    Undeclared(u8, usize),
    UndeclaredOwnerNode,
    UndeclaredOwnerFlow,
    ScopeAboveTwo,
    GlobalOwner,
    ReplyBeforeFunction,
    // 7
    WireAcrossFlows,
    HandlerUnseenNodeVariable(u8),
    HandlerUnseenFlowVariable(u8),
    PermissionUnseen(u8),
    PermissionNotShared(u8),
    PermissionUnseenNotShared(u8),
    // 8
    Repeated(u8),
    ReplyWithOtherAnswer,
    SecondBody,
    SecondStartSameNode,
    SecondStartOtherNode,
    // 9
    JumpOnePastEnd(u8),
    JumpFarPastEnd(u8),
    TwoBadJumps,
    /// Refused for what comes after the jump.
    BadJumpBeforeOtherRefusal,
    /// Refused for the jump.
    UnusedBeforeBadJump,
    // 15
    /// If it is not alone, what comes after the SPAN is wrong too.
    LowAboveHigh {
        alone: bool,
    },
    // 19
    Unused(u8),
    /// The handler has the other access of the variable, or another handler the same call.
    UnusedBesideClose(u8),
    SeveralUnused,
    UseLost,
}

use Reason::*;

impl Reason {
    pub fn all() -> Vec<Reason> {
        let mut list = vec![Empty, TooLong, TooLongAndBroken, UnknownByte, UnknownLastByte];
        list.extend([CutOperands, CutInLowerGroup]);
        list.extend(with_operands().map(CutOverCount));
        list.extend([LowerGroup, LowerGroupOverCount, LowerGroupUndeclared]);
        list.extend(COUNTS.map(OverCount));
        list.extend(with_operands().filter(|&count| count != Count::Functions).map(OverCountUndeclared));
        list.extend([Count::Args, Count::Replies].map(OverCountRepeated));
        list.push(NodeBeforeFlow);
        list.extend(
            COMMANDS.iter().filter(|row| is_handler(row.byte)).map(|row| HandlerBeforeBody(row.byte)),
        );
        list.extend(undeclared());
        list.extend([UndeclaredOwnerNode, UndeclaredOwnerFlow, ScopeAboveTwo, GlobalOwner]);
        list.extend([ReplyBeforeFunction, WireAcrossFlows]);
        for byte in [GET, PUT, PLUS] {
            list.extend([HandlerUnseenNodeVariable(byte), HandlerUnseenFlowVariable(byte)]);
        }
        for byte in [READ, WRITE] {
            list.extend([PermissionUnseen(byte), PermissionNotShared(byte), PermissionUnseenNotShared(byte)]);
        }
        list.extend([WIRE, ANY, ARG, READ, WRITE, SPAN, REPLY].map(Repeated));
        list.extend([ReplyWithOtherAnswer, SecondBody, SecondStartSameNode, SecondStartOtherNode]);
        for byte in [JUMP, JUMPZ] {
            list.extend([JumpOnePastEnd(byte), JumpFarPastEnd(byte)]);
        }
        list.extend([TwoBadJumps, BadJumpBeforeOtherRefusal]);
        list.extend([true, false].map(|alone| LowAboveHigh { alone }));
        list.extend(SORTS.map(Unused));
        list.extend(SORTS.map(UnusedBesideClose));
        list.extend([SeveralUnused, UseLost, UnusedBeforeBadJump]);
        list
    }

    /// Those that are drawn with a generator of numbers.
    pub fn drawn_with(random: &Random) -> Vec<Reason> {
        let mut list = Reason::all();
        list.retain(|reason| random.draws_spans || !reason.needs_span());
        list.retain(|reason| random.draws_replies || !reason.needs_reply());
        list.retain(|reason| random.draws_unused || !reason.needs_unused());
        list
    }

    /// Whether the damage is an unused permission.
    pub fn needs_unused(self) -> bool {
        self.number() == 19 || self == UnusedBeforeBadJump
    }

    /// Whether the damage is a SPAN.
    pub fn needs_span(self) -> bool {
        matches!(self, Repeated(SPAN) | Undeclared(SPAN, _)) || self.number() == 15
    }

    /// Whether the damage is a REPLY.
    pub fn needs_reply(self) -> bool {
        match self {
            CutOverCount(count) | OverCount(count) => count == Count::Replies,
            OverCountUndeclared(count) | OverCountRepeated(count) => count == Count::Replies,
            Repeated(byte) | Undeclared(byte, _) => byte == REPLY,
            ReplyBeforeFunction | ReplyWithOtherAnswer => true,
            _ => false,
        }
    }
}

/// Numbers of refusals, and how often each is drawn; 15 is the last. 19 is drawn apart.
const NUMBERS: [u8; 10] = [1, 2, 3, 4, 5, 6, 7, 8, 9, 15];
const WEIGHTS: [usize; 10] = [5, 8, 11, 8, 12, 20, 14, 14, 8, 8];

impl Reason {
    /// The refusal's number.
    pub fn number(self) -> u8 {
        match self {
            Empty | TooLong | TooLongAndBroken => 1,
            UnknownByte | UnknownLastByte => 2,
            CutOperands | CutInLowerGroup | CutOverCount(_) => 3,
            LowerGroup | LowerGroupOverCount | LowerGroupUndeclared => 4,
            OverCount(_) | OverCountUndeclared(_) | OverCountRepeated(_) => 5,
            NodeBeforeFlow | HandlerBeforeBody(_) | Undeclared(..) => 6,
            UndeclaredOwnerNode | UndeclaredOwnerFlow | ScopeAboveTwo | GlobalOwner => 6,
            ReplyBeforeFunction => 6,
            WireAcrossFlows | HandlerUnseenNodeVariable(_) | HandlerUnseenFlowVariable(_) => 7,
            PermissionUnseen(_) | PermissionNotShared(_) | PermissionUnseenNotShared(_) => 7,
            Repeated(_) | ReplyWithOtherAnswer => 8,
            SecondBody | SecondStartSameNode | SecondStartOtherNode => 8,
            JumpOnePastEnd(_) | JumpFarPastEnd(_) | TwoBadJumps | UnusedBeforeBadJump => 9,
            BadJumpBeforeOtherRefusal => 6,
            LowAboveHigh { .. } => 15,
            Unused(_) | UnusedBesideClose(_) | SeveralUnused | UseLost => 19,
        }
    }

    /// Any reason but of 19, every number about as often as the others.
    pub fn draw(random: &mut Random) -> Reason {
        let last = if random.draws_spans { NUMBERS.len() } else { NUMBERS.len() - 1 };
        let number = NUMBERS[random.weighted(&WEIGHTS[..last])];
        Reason::draw_of(random, number)
    }

    /// Any reason of 19, several unused permissions more often than the others.
    pub fn draw_unused(random: &mut Random) -> Reason {
        if random.chance(25) {
            return SeveralUnused;
        }
        Reason::draw_of(random, 19)
    }

    /// Any reason of a number.
    fn draw_of(random: &mut Random, number: u8) -> Reason {
        let mut reasons = Reason::drawn_with(random);
        reasons.retain(|reason| reason.number() == number);
        random.pick(&reasons)
    }
}

/// The counted kinds whose commands have operands.
fn with_operands() -> impl Iterator<Item = Count> {
    COUNTS.into_iter().filter(|count| !matches!(count, Count::Flows | Count::Nodes))
}

/// Every operand that names a node, function, variable or port.
fn undeclared() -> impl Iterator<Item = Reason> {
    let names = |operand: &Operand| {
        use Operand::*;
        matches!(operand, Node | TargetNode | Function | Variable | Port)
    };
    COMMANDS.iter().flat_map(move |row| {
        let operands = row.operands.iter().enumerate();
        operands.filter(move |(_, operand)| names(operand)).map(|(index, _)| Undeclared(row.byte, index))
    })
}
