//! Lists in another order in a case: every call but setup is tried on them. Then a list that is refused is put back, or the
//! heap is set up anew.

use crate::calls;
use crate::case::{set_up, table, view, Stage};
use crate::damage::Victim;
use crate::patrols::{put_back, Before};
use crate::random::Random;
use crate::side::Action;
use kruzhvela::flat::ANSWER_REFUSAL;
use second::Call;

/// Links a list anew, if one has two members. Where equal ones changed places the heap still passes, and the case goes
/// on with it.
pub fn play(stage: &mut dyn Stage, random: &mut Random) {
    let before = Before::of(stage);
    let (words, v, t) = (before.words(), view(stage), table(stage));
    let side = stage.side();
    let victim = Victim { region: &side.region, record: &side.record, view: view(stage) };
    let Some(stores) = victim.reordered(random) else { return };
    for store in stores {
        stage.play(store);
    }
    let answer = stage.play(Action::Call(Call::Check));
    for number in 1..calls::CALLS {
        let call = calls::numbered(number, words, &v, &t, random);
        stage.play(Action::Call(call));
    }
    match answer {
        Some(answer) if answer[ANSWER_REFUSAL] == 0 => {}
        _ if random.once_in(6) => set_up(stage, random),
        _ => put_back(stage, before),
    }
}
