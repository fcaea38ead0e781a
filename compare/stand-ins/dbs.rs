// SPDX-License-Identifier: Apache-2.0 AND BSD-3-Clause
//! Stand-ins for dbs-device, dbs-interrupt, dbs-utils, kvm-ioctls and virtio-bindings: what mem.rs names of them.

pub mod dbs_device {
    pub mod resources {
        /// The resources that a device is given: its ranges of guest addresses and its slots.
        pub struct DeviceResources {
            pub ranges: Vec<(u64, u64)>,
            pub slots: Vec<u32>,
        }

        impl DeviceResources {
            pub fn get_mem_address_ranges(&self) -> Vec<(u64, u64)> {
                self.ranges.clone()
            }

            pub fn get_kvm_mem_slots(&self) -> Vec<u32> {
                self.slots.clone()
            }
        }

        /// A resource that a device asks for.
        pub enum ResourceConstraint {
            LegacyIrq {
                irq: Option<u32>,
            },
            GenericIrq {
                size: u32,
            },
            MemAddress {
                range: Option<(u64, u64)>,
                align: u64,
                size: u64,
            },
            KvmMemSlot {
                slot: Option<u32>,
                size: u32,
            },
        }
    }
}

pub mod dbs_interrupt {
    use std::io;

    pub trait InterruptNotifier: Send + Sync {
        fn notify(&self) -> io::Result<()>;
    }

    pub struct NoopNotifier;

    impl NoopNotifier {
        #[allow(clippy::new_without_default)]
        pub fn new() -> Self {
            NoopNotifier
        }
    }

    impl InterruptNotifier for NoopNotifier {
        fn notify(&self) -> io::Result<()> {
            Ok(())
        }
    }
}

pub mod dbs_utils {
    pub mod epoll_manager {
        use std::sync::{Arc, Mutex};

        pub struct EventSet;

        impl EventSet {
            pub const IN: EventSet = EventSet;
        }

        pub struct Events {
            data: u32,
        }

        impl Events {
            pub fn with_data<T>(_source: &T, data: u32, _events: EventSet) -> Self {
                Events { data }
            }

            pub fn data(&self) -> u32 {
                self.data
            }
        }

        pub struct EventOps;

        impl EventOps {
            pub fn add(&mut self, _events: Events) -> Result<(), ()> {
                Ok(())
            }
        }

        pub trait MutEventSubscriber {
            fn process(&mut self, events: Events, ops: &mut EventOps);
            fn init(&mut self, ops: &mut EventOps);
        }

        pub type EpollSubscriber = Box<dyn MutEventSubscriber + Send>;

        #[derive(Clone, Copy, Debug, PartialEq)]
        pub struct SubscriberId(usize);

        /// Keeps subscribers; the driver, not a thread, wakes them.
        #[derive(Clone, Default)]
        pub struct EpollManager {
            subscribers: Arc<Mutex<Vec<Option<EpollSubscriber>>>>,
        }

        impl EpollManager {
            pub fn add_subscriber(&self, subscriber: EpollSubscriber) -> SubscriberId {
                let mut subscribers = self.subscribers.lock().unwrap();
                subscribers.push(Some(subscriber));
                SubscriberId(subscribers.len() - 1)
            }

            pub fn remove_subscriber(&self, id: SubscriberId) -> Result<EpollSubscriber, ()> {
                self.subscribers.lock().unwrap()[id.0].take().ok_or(())
            }

            /// The subscriber that came last, lent to `f`.
            pub fn with_last<T>(&self, f: impl FnOnce(&mut EpollSubscriber) -> T) -> T {
                let mut subscribers = self.subscribers.lock().unwrap();
                f(subscribers.last_mut().unwrap().as_mut().unwrap())
            }
        }
    }
}

pub mod kvm_ioctls {
    pub struct VmFd;
}

pub mod virtio_bindings {
    pub mod bindings {
        pub mod virtio_blk {
            pub const VIRTIO_F_VERSION_1: u32 = 32;
        }
    }
}
