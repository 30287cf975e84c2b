/* vme_sim.h: boards of libvme for simulators that pass integers alone: SystemVerilog by DPI-C, VHDL by VHPIDIRECT, Verilog by VPI.
 *
 * hdl/cosim/vme_sim.c has the functions; link it with libvme.a. The answers are those of vme.h, which are proved; this file and the
 * interfaces of a simulator are not.
 *
 * Boards.  There are at most 32, of at most 1 MiB together; they live as long as the program. A number that names no board, and a
 *          size that is not possible, is an error, never undefined.
 * Levels.  strobes is DS1*, DS0*, A01, LWORD* from bit 3 down; 0 is low. addr is A31 to A02 with two zeros, as bits: an int of 32
 *          bits may be negative. data is D31 to D00: there is no eight-byte data.
 * Threads. One at a time: the results of a cycle stay until the next one, for vme_sim_data, vme_sim_lanes and vme_sim_moved.
 */
#ifndef VME_SIM_H
#define VME_SIM_H

#ifdef __cplusplus
extern "C" {
#endif

/* Makes a board of size zeros, whose class has width (8, 16 or 32) and the switches uat, blt and rmw. Returns its number, or -1 if
 * there is no place for it. */
int vme_sim_board(int size, int width, int uat, int blt, int rmw);

/* Returns the offset of the first byte that the strobes select, in an entry of the address map with this space (16, 24 or 32), base
 * and size, or -1 if the entry does not respond to the code and the address, or the strobes select nothing. */
int vme_sim_select(int space, int base, int size, int supervisory, int am, int addr, int strobes);

/* The reply of a board to the cycle that the lines show, with the datum's first byte at an offset: 0 for DTACK*, 32 for BERR*, or
 * another result of vme.h. In a block the caller adds vme_sim_moved to the offset after each datum. Both halves of a
 * read-modify-write are a call of their own; whether the board has them is the caller's to check. */
int vme_sim_cycle(int board, int am, int addr, int strobes, int write_n, int data, int at);

/* Of the last cycle, if it was a read with DTACK*: D31 to D00, and which lanes carry it; bit 3 is D31 to D24. Else 0. */
int vme_sim_data(void);
int vme_sim_lanes(void);

/* The number of bytes that the last cycle moved. */
int vme_sim_moved(void);

#ifdef __cplusplus
}
#endif
#endif
