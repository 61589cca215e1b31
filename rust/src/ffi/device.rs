//! The device alone.

use crate::{Device, Geometry};

#[repr(C)]
pub(crate) struct EventAnswer {
    pub decline: u32,
    pub event: bool,
    pub device: Device,
}

#[repr(C)]
pub(crate) struct DeviceAnswer {
    pub decline: u32,
    pub device: Device,
}

#[repr(C)]
pub(crate) struct RegisterReadAnswer {
    pub decline: u32,
    pub value: u32,
    pub device: Device,
}

extern "C" {
    #[link_name = "yohrundel_power_on_2"]
    fn yohrundel_power_on() -> Device;

    #[link_name = "yohrundel_store_2"]
    fn yohrundel_store(g: Geometry, d: Device, register: u32, form: u32, value: u32)
        -> EventAnswer;

    #[link_name = "yohrundel_register_read_2"]
    fn yohrundel_register_read(g: Geometry, d: Device, register: u32) -> RegisterReadAnswer;

    #[link_name = "yohrundel_start_up_2"]
    fn yohrundel_start_up(g: Geometry, d: Device) -> DeviceAnswer;
}

pub(crate) fn power_on() -> Device {
    // SAFETY: nothing is handed over.
    unsafe { yohrundel_power_on() }
}

pub(crate) fn store(g: Geometry, d: Device, register: u32, form: u32, value: u32) -> EventAnswer {
    // SAFETY: all is handed over by value.
    unsafe { yohrundel_store(g, d, register, form, value) }
}

pub(crate) fn register_read(g: Geometry, d: Device, register: u32) -> RegisterReadAnswer {
    // SAFETY: all is handed over by value.
    unsafe { yohrundel_register_read(g, d, register) }
}

pub(crate) fn start_up(g: Geometry, d: Device) -> DeviceAnswer {
    // SAFETY: all is handed over by value.
    unsafe { yohrundel_start_up(g, d) }
}
