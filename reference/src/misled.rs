//! Wrong queues about the Remove (document 02, W5): each takes the right queue and
//! does one begin, stage or answer of a Remove its own way.

use crate::answer::Answer;
use crate::calls::{Call, Outcome};
use crate::queue::{Job, Key, Operation, Place, Processor, Queue, Stage, Wanted};
use crate::queue::{HEAD, MAX_NUMBER};
use crate::stages::at;

/// What goes another way by mistake.
#[derive(Clone, Copy, PartialEq, Eq, Debug)]
pub enum Misled {
    /// A ticket above the clock is refused with 38.
    FutureRefused,
    /// Check 21 wants the ticket that is looked for to be no later than the clock.
    FutureUnsound,
    /// Ticket 0 is taken, as if it were 1.
    ZeroTaken,
    /// 38 is looked for before 33.
    KeyBeforeBusy,
    /// A Remove is begun as a Delete_Min.
    BegunAsDeleteMin,
    /// X1 reads from the head on, and not from the end of the Search.
    ReadsFromHead,
    /// X1 answers N at the key itself.
    KeyLeft,
    /// X1 answers N at a node before the key.
    GivesUp,
    /// X1 answers N where it is led back to the head.
    HeadIsAnother,
    /// X1 takes a node with the same due minute for the key.
    DueAlone,
    /// X1 takes a node with the same ticket for the key.
    TicketAlone,
    /// X2 lets every stamp pass, and none.
    StampNotTested,
    /// X2 lets the stamp of the begin's own time pass.
    StampAtBegin,
    /// X3 marks what is marked.
    MarkNotTested,
    /// X3 sets the mark of processor 0, whoever calls.
    MarkedAsZero,
    /// The removal takes the nodes that the first Search saved.
    NoSecondSearch,
    /// The entry is handed out, and not taken back.
    HandedOut,
    /// U tells the item of another node.
    OtherItem,
    /// N tells no ticket.
    NoTicketTold,
    /// N leaves the saved nodes as they are.
    SavedLeft,
}

/// Every such mistake.
pub const MISLED: [Misled; 20] = [
    Misled::FutureRefused,
    Misled::FutureUnsound,
    Misled::ZeroTaken,
    Misled::KeyBeforeBusy,
    Misled::BegunAsDeleteMin,
    Misled::ReadsFromHead,
    Misled::KeyLeft,
    Misled::GivesUp,
    Misled::HeadIsAnother,
    Misled::DueAlone,
    Misled::TicketAlone,
    Misled::StampNotTested,
    Misled::StampAtBegin,
    Misled::MarkNotTested,
    Misled::MarkedAsZero,
    Misled::NoSecondSearch,
    Misled::HandedOut,
    Misled::OtherItem,
    Misled::NoTicketTold,
    Misled::SavedLeft,
];

/// What a step does in place of the right one.
enum Turn {
    Goes(Stage),
    Ends(Wanted),
    Marks(u8),
}

impl Misled {
    /// Makes a call on the right queue with this mistake.
    pub(crate) fn call(self, queue: &mut Queue, call: &Call) -> Outcome {
        if self == Misled::FutureUnsound && looks_ahead(queue) {
            return Outcome::Refused(21);
        }
        match *call {
            Call::Remove {
                processor,
                due,
                ticket,
            } => queue.call_inner(&self.begin(queue, [processor, due, ticket])),
            Call::Step { processor } if may_step(queue, processor) => {
                Outcome::Stepped(self.step(queue, processor as usize))
            }
            _ => queue.call_inner(call),
        }
    }

    /// The call whose answer is that of a Remove's begin.
    fn begin(self, queue: &Queue, [processor, due, ticket]: [u64; 3]) -> Call {
        let limit = u64::from(MAX_NUMBER);
        let bad = due > limit || ticket == 0 || ticket > limit;
        let known = processor < u64::from(queue.processor_count);
        let idle = (0..u64::from(queue.processor_count)).find(|&p| !may_step(queue, p));
        let remove = |processor: u64, ticket: u64| Call::Remove {
            processor,
            due,
            ticket,
        };
        match self {
            Misled::FutureRefused if ticket > u64::from(queue.clock) => remove(processor, 0),
            Misled::ZeroTaken if ticket == 0 => remove(processor, 1),
            Misled::KeyBeforeBusy if known && bad => remove(idle.unwrap_or(processor), ticket),
            Misled::BegunAsDeleteMin if !bad => Call::DeleteMin { processor },
            _ => remove(processor, ticket),
        }
    }

    fn step(self, queue: &mut Queue, p: usize) -> Answer {
        let was = queue.processors[p];
        let turn = match was.stage {
            Stage::X1Read(wanted, a) => self.read(queue, wanted, a),
            Stage::X2Test(wanted, a) => self.test(queue, was.begin, wanted, a),
            Stage::X3Mark(_, a) if self == Misled::MarkNotTested => Some(Turn::Marks(a.node)),
            _ => None,
        };
        queue.clock += 1;
        match turn {
            Some(Turn::Goes(stage)) => queue.go(p, stage),
            Some(Turn::Ends(wanted)) => queue.not_there(p, wanted),
            Some(Turn::Marks(node)) => queue.mark(p, node, Job::TakeBack),
            None => {
                let answer = queue.run_stage(p);
                self.spoil(queue, p, &was);
                self.tell(queue, &was, answer)
            }
        }
    }

    /// X1, where the mistake is about it.
    fn read(self, queue: &Queue, wanted: Wanted, a: Place) -> Option<Turn> {
        let b = queue.after(at(a.node, 1));
        let key = queue.key(b);
        let (due, ticket) = match key {
            Key::Entry(due, ticket) => (due == wanted.due, ticket == wanted.ticket),
            Key::Head | Key::Tail => (false, false),
        };
        let found = Some(Turn::Goes(Stage::X2Test(wanted, at(b, 1))));
        let gives_up = match self {
            Misled::KeyLeft => key == wanted.key(),
            Misled::GivesUp => key < wanted.key(),
            Misled::HeadIsAnother => key == Key::Head,
            _ => false,
        };
        match self {
            Misled::DueAlone if due => found,
            Misled::TicketAlone if ticket => found,
            _ => gives_up.then_some(Turn::Ends(wanted)),
        }
    }

    /// X2, where the mistake is about it.
    fn test(self, queue: &Queue, begin: u32, wanted: Wanted, a: Place) -> Option<Turn> {
        let entry = a.node != HEAD && a.node != queue.tail();
        let passes = match self {
            Misled::StampNotTested => entry,
            Misled::StampAtBegin => queue.nodes[a.node as usize].stamp == Some(begin),
            _ => false,
        };
        passes.then_some(Turn::Goes(Stage::X3Mark(wanted, a)))
    }

    /// Changes what the right step left.
    fn spoil(self, queue: &mut Queue, p: usize, was: &Processor) {
        let stage = queue.processors[p].stage;
        match (self, was.stage, stage) {
            (Misled::ReadsFromHead, Stage::XSearch(..), Stage::X1Read(wanted, _)) => {
                queue.go(p, Stage::X1Read(wanted, at(HEAD, 1)));
            }
            (Misled::MarkedAsZero, Stage::X3Mark(_, a), Stage::Search(..)) => {
                queue.nodes[a.node as usize].mark = 1;
            }
            (Misled::NoSecondSearch, Stage::X3Mark(..), Stage::Search(..)) => {
                queue.go(p, Stage::L1LockNode(Job::TakeBack));
            }
            (Misled::HandedOut, Stage::X3Mark(..), Stage::Search(_, a)) => {
                queue.go(p, Stage::Search(Operation::Removal(Job::HandOut), a));
            }
            (
                Misled::SavedLeft,
                Stage::X1Read(..) | Stage::X2Test(..) | Stage::X3Mark(..),
                Stage::Idle,
            ) => queue.processors[p].saved = was.saved,
            _ => {}
        }
    }

    /// What is told in the place of the right answer.
    fn tell(self, queue: &Queue, was: &Processor, answer: Answer) -> Answer {
        match (self, answer) {
            (Misled::OtherItem, Answer::TakenBack(mut entry)) => {
                entry.item = queue.entry(was.own % queue.node_count + 1).item;
                Answer::TakenBack(entry)
            }
            (Misled::NoTicketTold, Answer::NotThere { due, .. }) => {
                Answer::NotThere { due, ticket: 0 }
            }
            _ => answer,
        }
    }
}

/// Whether a step of this processor is accepted.
fn may_step(queue: &Queue, processor: u64) -> bool {
    let known = processor < u64::from(queue.processor_count);
    known && queue.clock < MAX_NUMBER && queue.processors[processor as usize].stage != Stage::Idle
}

/// Whether somebody looks for a ticket above the clock.
fn looks_ahead(queue: &Queue) -> bool {
    queue.busy().any(|processor| match processor.stage {
        Stage::XSearch(wanted, _)
        | Stage::X1Read(wanted, _)
        | Stage::X2Test(wanted, _)
        | Stage::X3Mark(wanted, _) => wanted.ticket > queue.clock,
        _ => false,
    })
}
