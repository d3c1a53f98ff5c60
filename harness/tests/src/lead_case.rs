//! Cases of the lead: in a frame that the candidate built, the runs that stray furthest from their share.

use calls::{Calls, Class, Count, Service, Side, INPUT_SIDE};
use loads::{load_of_shape, random_shape, Call, Followed, LoadKind, Random, Seam, Shape};
use reference::queue::{pass, Source};
use reference::wire::{deviation, repeat_deviation, Course, Run, Whose};
use reference::LONGEST_RUN;

use crate::build_case::{lend, wire_frame};
use crate::chain_case::straying_load;
use crate::hits::{Hits, Used, LEAD_REACHED};
use crate::lent::Lent;
use crate::share_case::{class_of, every_class, every_link, expect_every_run, expect_total};
use crate::verdict::{expect, expect_equal, Verdict};

/// The slots that a case looks at, all its classes together.
const SLOTS: usize = 8_192;

/// The most classes that it looks at.
const CLASSES: usize = 300;

/// A frame that the candidate built, to be counted by it.
struct Built<'b> {
    candidate: &'b dyn Calls,
    call: &'b Call,
    frame: &'b Lent,
}

/// Builds a load that fits, and counts the flows, inputs, outputs and links of its frame, and all cells of it.
pub fn check_leads(candidate: &dyn Calls, random: &mut Random, hits: &mut Hits) -> Verdict {
    let shape = random_shape(random);
    let flow = straying_flow(shape, random);
    let call = match flow {
        Some(flow) => straying_load(flow, shape, random),
        None => load_of_shape(random.pick(&LoadKind::FITTING), shape, random),
    };
    let mut frame = lend(&random.entries(call.frame_length), random);
    let Call {
        ports,
        slots,
        list,
        limits,
        ..
    } = &call;
    let answer = candidate.build(*ports, *slots, list, limits, frame.part_mut());
    expect(answer.is_ok(), || format!("build: {answer:?}"))?;
    hits.add(format!("leads of a frame of {} slots", call.slots));
    let before = frame.clone();
    let built = Built {
        candidate,
        call: &call,
        frame: &frame,
    };
    let turns = vec![wire_frame(&call, frame.part()); 2];
    for class in classes_of(&call, flow, random) {
        built.check(class, &Course::of(&turns, class), random, hits)?;
    }
    for link in links_of(&call, random) {
        check_link(&Course::of(&turns, link), link, random, hits)?;
    }
    built.check_total(&Course::of(&turns, Whose::Total), random, hits)?;
    frame.expect_same("frame after counts", &before)
}

/// In one case of three, a flow that has the cells of a seam.
fn straying_flow(shape: Shape, random: &mut Random) -> Option<Followed> {
    let seam = Seam::of_slots(shape.slots).filter(|_| random.one_in(3));
    seam.map(|seam| Followed::random(seam.cells, random))
}

/// Every flow, input and output in random order, the flow of the seam first; fewer where there are many or the frame is long.
fn classes_of(call: &Call, flow: Option<Followed>, random: &mut Random) -> Vec<Class> {
    let mut classes: Vec<Class> = every_class(call.ports, call.flows()).collect();
    random.shuffle(&mut classes);
    let straying = flow.map(class_of).into_iter();
    let number = (SLOTS / call.slots as usize).min(CLASSES);
    straying.chain(classes).take(number).collect()
}

/// The links of every output in random order; fewer where the frame is long.
fn links_of(call: &Call, random: &mut Random) -> Vec<Whose> {
    let mut links: Vec<Whose> = every_link(call.ports).collect();
    random.shuffle(&mut links);
    links.truncate(SLOTS / call.slots as usize);
    links
}

/// Holds every run of a link, for which Service count is not asked, to the bounds.
fn check_link(course: &Course, link: Whose, random: &mut Random, hits: &mut Hits) -> Verdict {
    expect_every_run(course, link)?;
    expect_lead(course, link, hits)?;
    check_queue(course, link, random)
}

/// Holds the runs that get furthest ahead and fall furthest behind to what one frame that repeats allows, and notes how far they are.
fn expect_lead(course: &Course, whose: Whose, hits: &mut Hits) -> Verdict {
    let k = course.k();
    for run in [course.furthest_ahead(), course.furthest_behind()] {
        let lead = course.lead(run).abs();
        expect(lead <= repeat_deviation(k), || {
            format!("{whose:?} in {run:?}: a lead of {lead} is too far from 0 for one frame")
        })?;
        hits.stray(k, lead);
        hits.part(k, Used::Lead, lead, 2 * course.largest_stray());
        if lead >= deviation(k) {
            hits.add_at(LEAD_REACHED, k);
        }
    }
    Ok(())
}

impl Built<'_> {
    fn count(&self, class: Class, start: u64, length: u64) -> Service {
        let Call { ports, slots, .. } = *self.call;
        let (list, frame, question) =
            (&self.call.list, self.frame.part(), (class, (start, length)));
        self.candidate
            .service_count(INPUT_SIDE, ports, slots, list, frame, question)
    }

    /// Holds a whole turn to the load, the runs that get furthest ahead and fall furthest behind to the reference, and every run to the
    /// bounds; the course is that of two turns, so that runs across the end of the frame are in it.
    fn check(
        &self,
        class: Class,
        course: &Course,
        random: &mut Random,
        hits: &mut Hits,
    ) -> Verdict {
        let reserved = Count {
            cells: course.given[0].load,
            lead: 0,
        };
        let start = random.between(1, course.slots);
        let turn = self.count(class, start, course.slots);
        expect_equal("count of a whole turn", &turn, &Ok(reserved))?;
        for run in [course.furthest_ahead(), course.furthest_behind()] {
            self.check_run(class, course, run, random)?;
        }
        expect_every_run(course, class.into())?;
        expect_lead(course, class.into(), hits)?;
        check_queue(course, class.into(), random)
    }

    /// Holds every run of all cells together to the bounds. Service count is not asked for the total, but has to give the total's cells
    /// and lead in those of all inputs, on the runs on which they get furthest ahead and fall furthest behind.
    fn check_total(&self, course: &Course, random: &mut Random, hits: &mut Hits) -> Verdict {
        expect_every_run(course, Whose::Total)?;
        expect_total(course)?;
        expect_lead(course, Whose::Total, hits)?;
        for run in [course.furthest_ahead(), course.furthest_behind()] {
            let counted = self.count_all_inputs(run)?;
            let right = (course.cells(run), course.lead(run));
            expect_equal("counts of all inputs, added", &counted, &right)?;
        }
        check_queue(course, Whose::Total, random)
    }

    /// The cells and the leads of all inputs in a run, each added.
    fn count_all_inputs(&self, run: Run) -> Result<(u128, i128), String> {
        let Call { ports, slots, .. } = *self.call;
        let start = run.start as u64 % slots + 1;
        let (mut cells, mut lead) = (0, 0);
        for port in 1..=ports {
            let count = self.count(Class::Input { port }, start, run.length as u64);
            let count = count.map_err(|refusal| format!("count of input {port}: {refusal:?}"))?;
            cells += u128::from(count.cells);
            lead += i128::from(count.lead);
        }
        Ok((cells, lead))
    }

    /// Holds the lead of a run to the reference and to the bounds, then the same run after whole turns.
    fn check_run(&self, class: Class, course: &Course, run: Run, random: &mut Random) -> Verdict {
        let Call { ports, slots, .. } = *self.call;
        let start = run.start as u64 % slots + 1;
        let length = run.length as u64;
        let given = self.count(class, start, length);
        let (side, list, frame) = (Side::Input, &self.call.list, self.frame.part());
        let asked = (start, length);
        let right = reference::service_count(side, ports, slots, list, frame, class, asked);
        let what = format!("count of {class:?}, {length} slots from {start}");
        expect_equal(&what, &given, &right)?;
        let Count { cells, lead } = given.map_err(|refusal| format!("{what}: {refusal:?}"))?;
        expect_equal(&what, &i128::from(lead), &course.lead(run))?;
        expect(course.has_its_share(run), || {
            format!("{what}: a lead of {lead} is too far from 0")
        })?;
        let turns = random.between(0, (LONGEST_RUN - length) / slots);
        let later = Count {
            cells: cells + turns * course.given[0].load,
            lead,
        };
        let given = self.count(class, start, length + turns * slots);
        expect_equal(&format!("{what} and {turns} turns"), &given, &Ok(later))
    }
}

/// Runs a queue that is fed as fast as it may be while the frame repeats: no more waits than the source's allowance and the
/// lead that is furthest behind.
fn check_queue(course: &Course, whose: Whose, random: &mut Random) -> Verdict {
    let behind = course.furthest_behind();
    let source = Source {
        from: behind.start,
        ahead: random.between(0, 2 * course.slots),
    };
    let passed = pass(course, &source.arrivals(course));
    let waiting = i128::from(course.slots * passed.waiting);
    let allowed = i128::from(source.ahead) - course.lead(behind);
    expect(waiting <= allowed, || {
        format!("the queue of {whose:?}, fed by {source:?}, has {waiting} parts, and {allowed} are allowed")
    })
}
