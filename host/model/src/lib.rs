//! Holds the parts of the library: the board's side of the OpenLCB memory configuration protocol
//! as document 01 fixes it, and the tool's half, the writer of commands and the readers of what
//! comes back; what writes do to memory, and the changes from one image of memory to another; with
//! change requests C-11, C-12, C-14, C-15 and C-16 of document 02.
//!
//! Document 01 decides; source documents 000 (Memory Configuration), 002 (Message Network) and
//! 004 (Datagram Transport) stand behind it. Nothing here allocates while a frame is handled:
//! flash, memory, lock, reception state and reply buffer are all lent by the caller.

#![forbid(unsafe_code)]
#![warn(missing_docs)]

mod bits;
mod call_error;
mod change;
mod cutting;
mod datagram;
mod demonstration;
mod description;
mod effect;
mod frame;
mod gridconnect;
mod joining;
mod program;
mod reception;
mod sending;
mod splitting;
mod tool;

pub use bits::put_together;
pub use call_error::CallError;
pub use change::{next_change, Change, ChangeRefusal};
pub use cutting::{cut, cut_into, Frames, MOST_FRAMES};
pub use datagram::{code, handle_datagram, Answer, Lock, LONGEST_DATAGRAM};
pub use demonstration::{demo_board, Board, DEMONSTRATION_DESCRIPTION};
pub use description::{
    check_description, Description, Space, LARGEST_STORE, LAST_ALIAS, MOST_SPACES,
};
pub use effect::{is_accepted_write, Effect};
pub use frame::{received_ok_frame, rejected_frame, transport_reply, Frame, FRAME_DATA};
pub use gridconnect::{parse_line, print_line, LONGEST_LINE};
pub use joining::{handle_frame, handle_time, source_of, FrameAnswer};
pub use program::{run, session, Program};
pub use reception::{Kept, Reception, Unfinished, MOST_UNFINISHED, RECEPTION_TIMEOUT};
pub use sending::{frames_to_send, MOST_SENT};
pub use splitting::{Line, Splitter};
pub use tool::{
    read_received_ok, read_rejected, read_reply, write_command, NamedSpace, ReceivedOk,
    RejectedContent, Reply, Request, ToolRefusal,
};
