//! The same call done again and again: afterwards the record of its cluster is put back.

use crate::{calls::Row, stores::held};
use library::{ffi::HANDLE_MAX, guard::handles::Presented, guard::Lent, words::*};
use model::model::run;
use std::hint::black_box;

/// A store as an image, for the library and for the model, and as the model keeps it.
pub struct Repeated {
    pub held: Held,
    pub reply: Reply,
    pub buffer: [u8; NODE_BYTES],
    store: Store,
    /// As the library takes them.
    handles: Presented,
    place: (usize, usize),
    /// The record, and the cluster that it is of.
    record: [u8; RECORD_BYTES],
    cluster: Cluster,
}

impl Repeated {
    pub fn new(row: &Row) -> Repeated {
        let (held, (node, local)) = (held(&row.store), row.place);
        Repeated {
            reply: Reply::DONE,
            buffer: [0; NODE_BYTES],
            store: row.store.clone(),
            handles: Presented::of(&row.call, &[0; HANDLE_MAX]),
            place: row.place,
            record: held.image[record_at(node, local)].try_into().expect("a record has so many bytes"),
            cluster: row.store.clusters[node][local],
            held,
        }
    }

    pub fn by_library(&mut self, call: &Call) {
        let lent = Lent { image: &mut self.held.image, memory: &mut self.held.memory, buffer: &mut self.buffer };
        self.reply = lent.run(call, black_box(&self.handles), 0);
        self.put_back();
    }

    /// The image is written only by calls that change records, and not even read by weakening, which looks at no store.
    pub fn on_image(&mut self, call: &Call) {
        let Held { image, memory } = &mut self.held;
        if let Call::Weaken { .. } = call {
            self.reply = run(&mut self.store, memory, &mut self.buffer, call);
            return;
        }
        let mut store = decode(image).expect("the image is not damaged");
        self.reply = run(&mut store, memory, &mut self.buffer, call);
        if call.needs_primary() || matches!(call, Call::NewCluster { .. }) {
            *image = encode(&store);
        }
        self.put_back();
    }

    pub fn on_records(&mut self, call: &Call) {
        self.reply = run(&mut self.store, &mut self.held.memory, &mut self.buffer, call);
        self.store.clusters[self.place.0][self.place.1] = self.cluster;
    }

    fn put_back(&mut self) {
        self.held.image[record_at(self.place.0, self.place.1)].copy_from_slice(&self.record);
    }
}
