/* The interface of the Linux driver vme_user to programs (drivers/staging/vme_user/vme_user.h and vme.h of Linux 6.1), with names of our
 * own: the structs of its requests, the requests, and the flags in them. */
#ifndef VME_USER_H
#define VME_USER_H

#include <stdint.h>
#include <sys/ioctl.h>

/* A window of a master, by which a program reaches the bus. */
struct master_window {
    uint32_t enable;
    uint64_t vme_addr, size;
    uint32_t aspace, cycle, dwidth;
} __attribute__((packed));

/* A window of a slave, by which the bus reaches memory of the board. */
struct slave_window {
    uint32_t enable;
    uint64_t vme_addr, size;
    uint32_t aspace, cycle;
} __attribute__((packed));

/* An interrupt. */
struct irq_id {
    uint8_t level, statid;
};

#define GET_SLAVE _IOR(0xae, 1, struct slave_window)
#define SET_SLAVE _IOW(0xae, 2, struct slave_window)
#define GET_MASTER _IOR(0xae, 3, struct master_window)
#define SET_MASTER _IOW(0xae, 4, struct master_window)
#define IRQ_GEN _IOW(0xae, 5, struct irq_id)

enum { SPACE_A16 = 0x1, SPACE_A24 = 0x2, SPACE_A32 = 0x4 };
enum { CYCLE_SCT = 0x1, CYCLE_BLT = 0x2, CYCLE_MBLT = 0x4, CYCLE_SUPER = 0x1000, CYCLE_USER = 0x2000, CYCLE_PROGRAM = 0x4000, CYCLE_DATA = 0x8000 };
enum { WIDTH_D8 = 0x1, WIDTH_D16 = 0x2, WIDTH_D32 = 0x4, WIDTH_D64 = 0x8 };

#endif
