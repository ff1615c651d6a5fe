//! The paper's worked day, against the figures the papers print.

use reference::batch;
use reference::form::Form;
use reference::judge::{judge, Verdict};
use reference::rules::Place;
use reference::worked_day::{example_batch, lettered_days};

fn accepted(surplus: i128) -> Verdict {
    Verdict::Accepted { surplus }
}

fn broken(rule: u8, interval: usize, device: usize, window: usize) -> Verdict {
    Verdict::Broken(Place {
        rule,
        interval,
        device,
        window,
    })
}

/// (l) and (m) as A.3 has them: "Case (l) becomes 163,360 (30 minutes at 150 kW) and (m) 163,510."
#[test]
fn letters_give_the_figures_of_the_paper() {
    let figures = [
        ('a', accepted(167_860)),
        ('b', broken(5, 2, 1, 0)),
        ('c', accepted(167_860)),
        ('d', accepted(167_360)),
        ('e', accepted(106_660)),
        ('f', accepted(169_360)),
        ('g', broken(2, 2, 1, 0)),
        ('h', accepted(-1_452_140)),
        ('i', accepted(-552_140)),
        ('j', broken(20, 0, 1, 1)),
        ('k', accepted(167_860)),
        ('l', accepted(163_360)),
        ('m', accepted(163_510)),
    ];
    let days = lettered_days();
    assert_eq!(days.len(), figures.len());
    for ((letter, day), (figure_letter, figure)) in days.iter().zip(figures) {
        assert_eq!(*letter, figure_letter);
        let (case, plan) = day.messages();
        assert_eq!(judge(&case, &plan, &mut [0; 200]), figure, "({letter})");
    }
}

#[test]
fn batch_program_prints_the_lines_of_the_paper() {
    let printed: Vec<String> = batch::run(Form::BATCH, &example_batch())
        .iter()
        .map(|line| line.to_string())
        .collect();
    assert_eq!(
        printed,
        [
            "0 case 2 2 0",
            "1 accepted 167860",
            "2 broken 5 2 1 0",
            "3 refused 1 8",
        ]
    );
}
