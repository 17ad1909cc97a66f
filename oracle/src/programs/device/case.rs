//! One case: its numbers, and what is answered.

use crate::call::Call;
use crate::decimal::line;
use crate::drive::plans::First;
use crate::settings::Settings;
use crate::source::source;
use crate::transfer::Transfer;

use super::super::case::{digest, direct, head, world_text, Case, Memories};

/// The first number of a case's head.
const SOURCE_REQUESTS: u32 = 2;

/// The top byte of a register access's first number is 1; a direct access's is 0.
const REGISTER_ACCESS: u32 = 1 << 24;

/// Calls to a card, and what they leave.
pub fn of_calls(first: &First, memories: &Memories, calls: &[Call]) -> Case {
    let mut case = Case::of_card(first, memories, calls.len());
    let mut world = memories.world(first);
    for call in calls {
        case.numbers.extend(packed(call));
        case.text += &line(world.call(call).answer.numbers());
    }
    case.text += &world_text(&world);
    case
}

/// Requests for the sources of transfers.
pub fn of_requests(settings: Settings, memories: &Memories, transfers: &[Transfer]) -> Case {
    let (shared, window) = (memories.shared(), memories.window());
    let mut numbers = head(SOURCE_REQUESTS, &settings, memories, transfers.len());
    let mut text = String::new();
    for transfer in transfers {
        numbers.extend(request(transfer));
        let part = source(settings, &shared, &window, *transfer);
        let bytes = part.of(&shared, &window);
        text += &line([bytes.len() as u32, digest(bytes)]);
    }
    Case { numbers, text }
}

fn packed(call: &Call) -> [u32; 4] {
    match call {
        Call::Direct(access) => direct(access),
        Call::Register(access) => {
            let [direction, side] = [access.direction, access.side].map(u32::from);
            let first = direction | side << 8 | REGISTER_ACCESS;
            [first, access.offset, access.dword, 0]
        }
        Call::BurstWrite(_) | Call::BurstRead(..) => {
            unreachable!("bursts stand in cases of their own")
        }
    }
}

fn request(transfer: &Transfer) -> [u32; 4] {
    let [direction, shared, pci, size] = transfer.numbers();
    [direction << 16, shared, pci, size]
}
