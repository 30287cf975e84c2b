/* The interface of the Linux driver vme_user as programs have it, written from the driver's header apart from lib/vme_user.h, and what the
 * programs here share. */
#ifndef DRIVER_H
#define DRIVER_H

#define _GNU_SOURCE

#include <errno.h>
#include <fcntl.h>
#include <stdint.h>
#include <stdio.h>
#include <stdlib.h>
#include <string.h>
#include <sys/ioctl.h>
#include <unistd.h>

struct vme_master {
    uint32_t enable;
    uint64_t vme_addr;
    uint64_t size;
    uint32_t aspace;
    uint32_t cycle;
    uint32_t dwidth;
} __attribute__((packed));

struct vme_slave {
    uint32_t enable;
    uint64_t vme_addr;
    uint64_t size;
    uint32_t aspace;
    uint32_t cycle;
} __attribute__((packed));

struct vme_irq_id {
    uint8_t level;
    uint8_t statid;
};

#define VME_IOC_MAGIC 0xAE
#define VME_GET_SLAVE _IOR(VME_IOC_MAGIC, 1, struct vme_slave)
#define VME_SET_SLAVE _IOW(VME_IOC_MAGIC, 2, struct vme_slave)
#define VME_GET_MASTER _IOR(VME_IOC_MAGIC, 3, struct vme_master)
#define VME_SET_MASTER _IOW(VME_IOC_MAGIC, 4, struct vme_master)
#define VME_IRQ_GEN _IOW(VME_IOC_MAGIC, 5, struct vme_irq_id)

enum { VME_A16 = 0x1, VME_A24 = 0x2, VME_A32 = 0x4, VME_A64 = 0x8 };
enum { VME_SCT = 0x1, VME_BLT = 0x2, VME_MBLT = 0x4, VME_2eSST = 0x10, VME_SUPER = 0x1000, VME_USER = 0x2000, VME_PROG = 0x4000, VME_DATA = 0x8000 };
enum { VME_D8 = 0x1, VME_D16 = 0x2, VME_D32 = 0x4, VME_D64 = 0x8 };

/* Ends the program unless a fact holds. */
#define WANT(fact) \
    do { \
        if (!(fact)) { \
            fprintf(stderr, "%s:%d: not %s (errno %d)\n", __FILE__, __LINE__, #fact, errno); \
            exit(1); \
        } \
    } while (0)

/* Whether a call fails with an error. */
#define FAILS(call, number) (errno = 0, (call) == -1 && errno == (number))

static inline int open_device(const char *name)
{
    char path[64];
    snprintf(path, sizeof path, "/dev/bus/vme/%s", name);
    return open(path, O_RDWR);
}

static inline int set_master(int device, uint64_t base, uint64_t size, uint32_t aspace, uint32_t cycle, uint32_t width)
{
    const struct vme_master window = { 1, base, size, aspace, cycle, width };
    return ioctl(device, VME_SET_MASTER, &window);
}

#endif
