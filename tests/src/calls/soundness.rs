//! Every clause of soundness broken in every hall, in each call that is handed a state or a tray.

use super::inboxes::well_cut;
use super::logs::{even_log, Close};
use super::messages::MOST_IN_MESSAGE;
use super::opening::Open;
use super::run::{Held, Run};
use super::sizes::every_hall;
use super::states::{breaches, Scene};
use super::steps::Step;
use super::trays::{some_tray, unsound_tray, Put, BATCH_CLAUSES};
use crate::random::Random;
use second::RawNode;

pub fn boundaries(run: &mut Run) -> Held {
    let mut random = Random::new(0);
    for sizes in every_hall() {
        for breach in breaches() {
            for phase in [0, 1, sizes.f + 1, sizes.f + 2] {
                let scene = Scene::new(&mut random, sizes, phase);
                let sound = scene.state(&mut random);
                let Some(node) = breach.of(&mut random, &sound) else { continue };
                let inbox = well_cut(&mut random, &scene);
                run.expect(breach.name(), 2, &Open { node, tray: some_tray(&mut random), room: 132 })?;
                run.expect(breach.name(), 2, &Step { node, inbox, room: MOST_IN_MESSAGE })?;
                run.expect(breach.name(), 2, &Close { node, old: even_log(5), room: 300 })?;
            }
        }
    }
    for sizes in every_hall() {
        for clause in BATCH_CLAUSES {
            let tray = unsound_tray(&mut random, clause);
            run.expect(clause.0, 2, &Put { tray, entry: *random.pick(&tray.entries) })?;
            let node = RawNode { n: sizes.n, f: sizes.f, me: sizes.me, ..RawNode::default() };
            run.expect(clause.0, 2, &Open { node, tray, room: 132 })?;
        }
    }
    Ok(())
}
