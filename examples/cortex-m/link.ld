/* Memory of a bare Cortex-M, as QEMU's boards have it: 4 MB for code from `code`, 4 MB to write from `ram`; run.sh says where both stand. */
ENTRY(reset)
MEMORY {
    CODE (rx) : ORIGIN = code, LENGTH = 4M
    RAM (rwx) : ORIGIN = ram, LENGTH = 4M
}
stack_top = ORIGIN(RAM) + LENGTH(RAM);
SECTIONS {
    .text : { KEEP(*(.vectors)) *(.text*) *(.rodata*) . = ALIGN(8); } > CODE
    .ARM.exidx : { *(.ARM.exidx* .ARM.extab*) . = ALIGN(8); } > CODE
    .data : { data_start = .; *(.data*) . = ALIGN(8); data_end = .; } > RAM AT > CODE
    data_load = LOADADDR(.data);
    .bss (NOLOAD) : { bss_start = .; *(.bss*) *(COMMON) . = ALIGN(8); bss_end = .; end = .; } > RAM
}
