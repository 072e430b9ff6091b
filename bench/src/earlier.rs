//! Archives of earlier commits, which have no walks, no dimming, no layers, no raise, no drag, no displays, no busiest
//! second, no share, no answer for many points, no look, no sheets or nothing stale: there these functions answer 20, 20,
//! 17, 17, 17, 16, 26, 24, 25, 22, 19 and 28. Where an archive has its own, those are linked.
use crate::call::Call;
use crate::class::{Beside, Class};
use roqshyn::{busiest, Error, Id, Look, Meant, Rect, Session};

std::arch::global_asm!(".weak roq_begin", "roq_begin:", ".weak roq_portion", "roq_portion:", "mov eax, 20", "ret");
std::arch::global_asm!(".weak roq_hits", "roq_hits:", "mov eax, 25", "ret");
std::arch::global_asm!(".weak roq_dim", "roq_dim:", "mov eax, 20", "ret");
std::arch::global_asm!(".weak roq_set_layer", "roq_set_layer:", ".weak roq_raise", "roq_raise:", "mov eax, 17", "ret");
std::arch::global_asm!(".weak roq_drag", "roq_drag:", "mov eax, 17", "ret");
std::arch::global_asm!(".weak roq_look", "roq_look:", "mov eax, 22", "ret");
std::arch::global_asm!(".weak roq_add_display", "roq_add_display:", ".weak roq_maximise", "roq_maximise:");
std::arch::global_asm!(".weak roq_update_dims", "roq_update_dims:", "mov eax, 16", "ret");
// The bindings ask for the bytes of a session; an archive without the answer is taken to have as many.
std::arch::global_asm!(".weak roq_session_size", "roq_session_size:", "mov eax, {}", "ret", const size_of::<Session>());
// The struct goes back in two registers, here and in the next two.
std::arch::global_asm!(".weak roq_share", "roq_share:", "mov eax, 24", "xor edx, edx", "ret");
std::arch::global_asm!(
    ".weak roq_sheet",
    "roq_sheet:",
    ".weak roq_read_sheet",
    "roq_read_sheet:",
    "mov eax, 19",
    "xor edx, edx",
    "ret"
);
// The caller hands over where the struct goes, here and in the next two.
std::arch::global_asm!(
    ".weak roq_stale",
    "roq_stale:",
    "mov rax, rdi",
    "mov qword ptr [rdi], 28",
    "mov qword ptr [rdi + 8], 0",
    "mov qword ptr [rdi + 16], 0",
    "ret"
);
std::arch::global_asm!(".weak roq_display_at", "roq_display_at:", "mov rax, rdi", "mov dword ptr [rdi], 16", "ret");
std::arch::global_asm!(
    ".weak roq_busiest",
    "roq_busiest:",
    "mov rax, rdi",
    "mov qword ptr [rdi], 26",
    "mov qword ptr [rdi + 8], 0",
    "mov qword ptr [rdi + 16], 0",
    "ret"
);

/// Whether the archive has displays.
pub fn has_displays() -> bool {
    Session::start(1).expect("C is 1").add_display(Rect::new(0, 0, 1, 1)).is_ok()
}

/// Whether the archive has the calls of a class.
pub fn has(class: &Class) -> bool {
    let mut session = Session::start(1).expect("C is 1");
    if let [Call::Share(_)] = class.timed[..] {
        return session.share(Id::from(0)) == Err(Error::UnknownId);
    }
    if let [Call::Stale] = class.timed[..] {
        return session.stale(Meant::Redraw, Rect::default()).is_ok();
    }
    if let [Call::Sheet(_) | Call::ReadSheet] = class.timed[..] {
        return session.sheet(Id::from(0), &mut []) == Err(Error::UnknownId);
    }
    if let [Call::Layer(..), ..] = class.timed[..] {
        return session.set_layer(Id::from(0), 0) == Err(Error::UnknownId);
    }
    if let [Call::Raise(_), ..] = class.timed[..] {
        return session.raise(Id::from(0)) == Err(Error::UnknownId);
    }
    if class.timed.iter().any(|call| matches!(call, Call::Drag(..))) {
        return session.drag(Id::from(0), 0, 0) == Err(Error::UnknownId);
    }
    if let [Call::Maximise(_) | Call::UpdateDims | Call::DisplayAt(..), ..] = class.timed[..] {
        return has_displays();
    }
    if let [Call::Hits(_)] = class.timed[..] {
        return session.hits(&[], &mut []).is_ok();
    }
    match class.beside {
        Beside::Undivided => session.begin(false).is_ok(),
        Beside::Table | Beside::Bright => session.dim(false).is_ok(),
        Beside::Floats => session.look(Id::from(0), Look::fit(), 1, 1, &[0; 16], &mut [0]) == Err(Error::UnknownId),
        Beside::OnePass | Beside::Square => busiest(&[]).is_ok(),
        _ => true,
    }
}
