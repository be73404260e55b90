//! Sets and spaces. Of va.dll, vb.dll and vc.dll, at the bases below, one slot is bound: that of c.exe at RVA 0x1030,
//! to ordinal 7 of b.dll, which is its RVA 0x1010, by way of a forwarder of a.dll.

use petool::{
    judge, unbound, Binding, Entry, Fault, Key, MoveError, Moved, Place, Placed, Policy, SetError, Space, UnboundImport,
};

const V1: &[u8] = include_bytes!("../../../../crates/test_cases/data/v1.dll");
const V2: &[u8] = include_bytes!("../../../../crates/test_cases/data/v2.dll");
const VA: &[u8] = include_bytes!("../../../../crates/test_cases/data/va.dll");
const VB: &[u8] = include_bytes!("../../../../crates/test_cases/data/vb.dll");
const VC: &[u8] = include_bytes!("../../../../crates/test_cases/data/vc.dll");

const A: Entry<'static> = Entry {
    name: b"a.dll",
    file: VA,
    base: 0x1000_0000,
};
const B: Entry<'static> = Entry {
    name: b"b.dll",
    file: VB,
    base: 0x2000_0000,
};
const C: Entry<'static> = Entry {
    name: b"c.exe",
    file: VC,
    base: 0x40_0000,
};
const BOUND: Binding = Binding {
    image: 2,
    slot: 0x1030,
    exporter: 1,
    rva: 0x1010,
};

fn fault_of(set: &[Entry<'_>]) -> Fault {
    let judged = judge(set, Policy::Strict).unwrap_err().fault();
    assert_eq!(judged, Space::map(set, Policy::Strict).unwrap_err().fault());
    judged.unwrap()
}

#[test]
fn a_judgement_tells_what_imports_are_bound_to() {
    assert_eq!(judge(&[A, B, C], Policy::Strict), Ok(vec![BOUND]));
    assert_eq!(judge(&[], Policy::Strict), Ok(vec![]));
    // without a.dll: a fault, or a slot that is left unchanged
    assert_eq!(
        fault_of(&[B, C]),
        Fault {
            number: 48,
            image: 1,
            place: Place::Rva(0x1030)
        }
    );
    assert_eq!(judge(&[B, C], Policy::Known), Ok(vec![]));
}

#[test]
fn a_set_is_refused_by_its_first_fault() {
    let place = Place::Address(0x2000_0001);
    assert_eq!(
        fault_of(&[Entry { base: 0x2000_0001, ..B }]),
        Fault {
            number: 44,
            image: 0,
            place
        }
    );
    assert_eq!(
        fault_of(&[A, Entry { name: b"A.dll", ..B }]),
        Fault {
            number: 42,
            image: 1,
            place: Place::Item(1)
        }
    );
    let far = [A, Entry { name: b"d.dll", ..A }];
    assert_eq!(
        fault_of(&far),
        Fault {
            number: 47,
            image: 1,
            place: Place::Address(0x1000_0000)
        }
    );
    let names: Vec<String> = (0..300).map(|k| format!("{k}.dll")).collect();
    let many: Vec<_> = names
        .iter()
        .map(|name| Entry {
            name: name.as_bytes(),
            file: V1,
            base: 0,
        })
        .collect();
    assert_eq!(
        fault_of(&many),
        Fault {
            number: 41,
            image: 256,
            place: Place::Item(256)
        }
    );
    let error = judge(
        &[
            A,
            Entry {
                name: b"b.dll",
                file: &VB[..520],
                ..B
            },
        ],
        Policy::Strict,
    )
    .unwrap_err();
    let line = "image 1: section header at 0x138: the section's raw data extends past the end of the file";
    assert_eq!(error.to_string(), line);
    assert_eq!(SetError::Memory.to_string(), "out of memory");
}

#[test]
fn a_cycle_of_forwarders_has_a_length() {
    // the forwarder's string names ordinal 1 of a.dll, which is the forwarder itself
    let mut around = VA.to_vec();
    around[0x260..0x264].copy_from_slice(b"a.#1");
    let set = [Entry { file: &around, ..A }, C];
    let fault = Fault {
        number: 50,
        image: 1,
        place: Place::Rva(0x1030),
    };
    let cycle = SetError::Cycle { fault, length: 1 };
    assert_eq!(judge(&set, Policy::Strict), Err(cycle));
    assert_eq!(Space::map(&set, Policy::Known).unwrap_err(), cycle);
    assert!(cycle
        .to_string()
        .ends_with("the import leads into a cycle of forwarders of length 1"));
}

#[test]
fn a_space_shows_bound_slots_and_images() {
    let mut space = Space::map(&[A, B, C], Policy::Strict).unwrap();
    let mut slot = [0; 4];
    space.read(0x40_1030, &mut slot).unwrap();
    assert_eq!(slot, [0x10, 0x10, 0x00, 0x20]);
    assert_eq!(
        (space.image(1), space.image(3)),
        (
            Some(Placed {
                base: 0x2000_0000,
                size: 0x3000
            }),
            None
        )
    );
    assert_eq!(space.bindings(), Ok(vec![BOUND]));
    // past the image's last byte, and outside all images
    let mut two = [0x5a; 2];
    let fault = Fault {
        number: 54,
        image: 2,
        place: Place::Address(0x40_2fff),
    };
    assert_eq!((space.read(0x40_2fff, &mut two), two), (Err(fault), [0x5a; 2]));
    let fault = Fault {
        number: 54,
        image: 65535,
        place: Place::Address(0x40_3000),
    };
    assert_eq!(space.read(0x40_3000, &mut two), Err(fault));
    assert_eq!(space.read(0x40_3000, &mut []), Ok(()));
}

#[test]
fn a_slot_follows_the_image_that_it_leads_to() {
    let mut space = Space::map(&[A, B, C], Policy::Strict).unwrap();
    assert_eq!(space.move_image(1, 0x3000_0000), Ok(Moved { fields: 0, slots: 1 }));
    let mut slot = [0; 4];
    space.read(0x40_1030, &mut slot).unwrap();
    assert_eq!(slot, [0x10, 0x10, 0x00, 0x30]);
    // a refused move changes nothing
    let fault = Fault {
        number: 47,
        image: 1,
        place: Place::Address(0x1000_0000),
    };
    assert_eq!(space.move_image(1, 0x1000_0000), Err(MoveError::Fault(fault)));
    assert_eq!(
        space.move_image(3, 0x1000_0000),
        Err(MoveError::Fault(Fault {
            number: 55,
            image: 3,
            place: Place::Item(3)
        }))
    );
    assert_eq!(
        space.image(1),
        Some(Placed {
            base: 0x3000_0000,
            size: 0x3000
        })
    );
}

#[test]
fn a_space_holds_its_own_bytes() {
    let mut space = {
        let file = V2.to_vec();
        Space::map(
            &[Entry {
                name: b"v2.dll",
                file: &file,
                base: 0x2000_0000,
            }],
            Policy::Strict,
        )
        .unwrap()
    };
    let mut field = [0; 4];
    space.read(0x2000_1008, &mut field).unwrap();
    assert_eq!(field, [0x08, 0x10, 0x00, 0x20]);
    assert_eq!(space.move_image(0, 0x5000_0000), Ok(Moved { fields: 1, slots: 0 }));
}

#[test]
fn a_space_goes_to_another_thread() {
    let mut space = Space::map(&[A, B, C], Policy::Strict).unwrap();
    let moved = std::thread::spawn(move || space.move_image(1, 0x3000_0000).map(|_| space))
        .join()
        .unwrap();
    assert_eq!(
        moved.unwrap().image(1),
        Some(Placed {
            base: 0x3000_0000,
            size: 0x3000
        })
    );
}

#[test]
fn an_opened_space_is_that_of_its_set() {
    let mut mapped = Space::map(&[A, B, C], Policy::Strict).unwrap();
    let mut opened = Space::open(&[A, B, C], Policy::Strict).unwrap();
    for base in [0x1000_0000, 0x3000_0000] {
        let moved = mapped.move_image(1, base);
        assert_eq!(opened.move_image(1, base), moved);
        assert_eq!(opened.bindings(), mapped.bindings());
        for image in 0..4 {
            assert_eq!(opened.image(image), mapped.image(image));
        }
        let (mut of_mapped, mut of_opened) = ([0; 0x3000], [0; 0x3000]);
        for image in 0..3 {
            let placed = mapped.image(image).unwrap();
            assert_eq!(placed.size, 0x3000);
            mapped.read(placed.base, &mut of_mapped).unwrap();
            opened.read(placed.base, &mut of_opened).unwrap();
            assert_eq!(of_opened, of_mapped);
        }
    }
    assert_eq!(
        Space::open(&[A, A], Policy::Strict).unwrap_err(),
        Space::map(&[A, A], Policy::Strict).unwrap_err()
    );
}

#[test]
fn a_space_is_not_moved_while_it_is_shared() {
    for opened in [false, true] {
        let mut space = if opened {
            Space::open(&[A, B, C], Policy::Strict).unwrap()
        } else {
            Space::map(&[A, B, C], Policy::Strict).unwrap()
        };
        let (mut second, mut third) = (space.shared().unwrap(), space.shared().unwrap());
        let mut slot = [0; 4];
        for each in [&mut space, &mut second, &mut third] {
            // whatever the image
            assert_eq!(each.move_image(1, 0x3000_0000), Err(MoveError::Shared));
            assert_eq!(each.move_image(9, 0x3000_0001), Err(MoveError::Shared));
            each.read(0x40_1030, &mut slot).unwrap();
            assert_eq!(slot, [0x10, 0x10, 0x00, 0x20]);
        }
        drop(space);
        assert_eq!(second.move_image(1, 0x3000_0000), Err(MoveError::Shared));
        drop(second);
        assert_eq!(third.move_image(1, 0x3000_0000), Ok(Moved { fields: 0, slots: 1 }));
        third.read(0x40_1030, &mut slot).unwrap();
        assert_eq!(slot, [0x10, 0x10, 0x00, 0x30]);
    }
}

#[test]
fn imports_that_are_bound_to_nothing_are_told() {
    assert_eq!(unbound(&[A, B, C]), Ok(vec![]));
    let alone = UnboundImport {
        image: 1,
        slot: 0x1030,
        module: b"A.DLL",
        key: Key::Name(b"f"),
    };
    assert_eq!(unbound(&[B, C]), Ok(vec![alone]));
    assert_eq!(
        unbound(&[A, A]).unwrap_err(),
        judge(&[A, A], Policy::Known).unwrap_err()
    );
}
