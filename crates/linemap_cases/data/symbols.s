# Symbols of one section from 0x1000 on: a of 16 bytes, b of 32 and c of none.
    .text
    .type a, @function
    .size a, 0x10
a:
    .type b, @function
    .size b, 0x20
b:
    .zero 8
c:
    .zero 24
