/* A program for the Linux driver vme_user, in slot 1 of user.toml: windows in each space, what they move, and each error. */
#include "driver.h"

#include <sys/mman.h>
#include <sys/wait.h>

static const uint32_t plain = VME_SCT | VME_USER | VME_DATA;

static void check_files(void)
{
    char byte = 0;
    WANT(FAILS(open_device("m4"), ENOENT) && FAILS(open_device("s1"), ENOENT) && FAILS(open_device("m"), ENOENT));
    const int only_read = open("/dev/bus/vme/m0", O_RDONLY), only_write = open("/dev/bus/vme/m0", O_WRONLY), control = open_device("ctl");
    const struct vme_irq_id irq = { 3, 0x42 };
    WANT(only_read >= 0 && only_write >= 0 && control >= 0);
    WANT(FAILS(pwrite(only_read, &byte, 1, 0), EBADF) && FAILS(pread(only_write, &byte, 1, 0), EBADF));
    WANT(read(control, &byte, 1) == 0 && write(control, &byte, 1) == 0 && FAILS(lseek(control, 0, SEEK_SET), EINVAL));
    WANT(FAILS(ioctl(control, VME_IRQ_GEN, &irq), EINVAL));
    WANT(close(only_read) == 0 && close(only_write) == 0 && close(control) == 0);
    WANT(FAILS(pread(only_read, &byte, 1, 0), EBADF));
    const int other = open("/dev/zero", O_RDONLY);
    WANT(read(other, &byte, 1) == 1 && close(other) == 0);
}

static void check_refusals(int device)
{
    struct vme_master window;
    char byte;
    memset(&window, 1, sizeof window);
    WANT(ioctl(device, VME_GET_MASTER, &window) == 0 && window.enable == 0 && window.size == 0 && window.dwidth == 0);
    WANT(read(device, &byte, 1) == 0);
    WANT(FAILS(set_master(device, 0, 256, VME_A16 | VME_A24, plain, VME_D32), EINVAL));
    WANT(FAILS(set_master(device, 0, 256, VME_A64, plain, VME_D32), EINVAL));
    WANT(FAILS(set_master(device, 0, 256, VME_A32, plain, 0), EINVAL));
    WANT(FAILS(set_master(device, 0, 256, VME_A32, plain, VME_D16 | VME_D32), EINVAL));
    WANT(FAILS(set_master(device, 0, 256, VME_A32, plain, VME_D64), EINVAL));
    WANT(FAILS(set_master(device, 0, 256, VME_A32, plain | VME_2eSST, VME_D32), EINVAL));
    WANT(FAILS(set_master(device, 0, 256, VME_A16, plain | VME_BLT, VME_D16), EINVAL));
    WANT(FAILS(set_master(device, 0, 256, VME_A16, VME_SCT | VME_PROG, VME_D16), EINVAL));
    WANT(FAILS(set_master(device, 0, 0, VME_A32, plain, VME_D32), EINVAL));
    WANT(FAILS(set_master(device, 0xff00, 512, VME_A16, plain, VME_D16), EFAULT));
    WANT(FAILS(set_master(device, 0xffffff00, 512, VME_A32, plain, VME_D32), EFAULT));
    WANT(FAILS(set_master(device, UINT64_MAX, 2, VME_A32, plain, VME_D32), EINVAL));
    WANT(FAILS(ioctl(device, VME_GET_SLAVE, &window), EINVAL) && FAILS(ioctl(device, 0x1234, &window), EINVAL));
    const struct vme_master off = { 0, 0x08000000, 4096, VME_A32, plain, VME_D32 };
    WANT(ioctl(device, VME_SET_MASTER, &off) == 0 && FAILS(pread(device, &byte, 1, 0), EIO));
}

/* Moves bytes through a window, and back, from an offset. */
static void check_moves(int device, off_t at, size_t count)
{
    uint8_t sent[1024], got[1024];
    for (size_t i = 0; i < count; i++)
        sent[i] = (uint8_t)(i * 7 + (size_t)at + count);
    memset(got, 0, sizeof got);
    WANT(pwrite(device, sent, count, at) == (ssize_t)count);
    WANT(pread(device, got, count, at) == (ssize_t)count && memcmp(sent, got, count) == 0);
}

static void check_master(int device)
{
    uint8_t bytes[64];
    struct vme_master window;
    WANT(set_master(device, 0x08000000, 4096, VME_A32, plain, VME_D32) == 0);
    WANT(ioctl(device, VME_GET_MASTER, &window) == 0 && window.enable == 1 && window.vme_addr == 0x08000000 && window.size == 4096);
    check_moves(device, 1, 13); /* a byte, two, four, four, two */
    for (off_t at = 32; at < 40; at++)
        for (size_t count = 1; count < 12; count++)
            check_moves(device, at, count);
    WANT(pread(device, bytes, 64, 4090) == 6 && pread(device, bytes, 64, 4096) == 0 && pread(device, bytes, 64, 9999) == 0);
    WANT(FAILS(pread(device, bytes, 4, -1), EINVAL));
    WANT(set_master(device, 0x08000000, 100, VME_A32, plain, VME_D32) == 0); /* shorter than the board */
    WANT(pread(device, bytes, 20, 90) == 10 && pwrite(device, bytes, 20, 99) == 1 && pread(device, bytes, 1, 100) == 0);
    WANT(set_master(device, 0x08000f00, 0x400, VME_A32, plain, VME_D32) == 0); /* longer than the board */
    WANT(pread(device, bytes, 16, 0xf8) == 8 && pread(device, bytes, 16, 0x100) == 0 && pwrite(device, bytes, 16, 0xfa) == 6);
}

static void check_spaces(int device)
{
    uint8_t byte = 9;
    WANT(set_master(device, 0x200000, 1024, VME_A24, plain, VME_D16) == 0);
    check_moves(device, 3, 50);
    WANT(set_master(device, 0x200000, 1024, VME_A24, VME_SCT | VME_SUPER | VME_PROG, VME_D16) == 0);
    WANT(pread(device, &byte, 1, 0) == 1);
    WANT(set_master(device, 0x1000, 256, VME_A16, plain, VME_D8) == 0);
    check_moves(device, 5, 20);
    WANT(set_master(device, 0x09000000, 4096, VME_A32, plain, VME_D32) == 0 && pread(device, &byte, 1, 0) == 0);
    WANT(set_master(device, 0x09000000, 4096, VME_A32, VME_SCT | VME_SUPER | VME_DATA, VME_D32) == 0);
    check_moves(device, 4, 8);
}

static void check_blocks(int device)
{
    WANT(set_master(device, 0x08000000, 4096, VME_A32, VME_BLT | VME_USER | VME_DATA, VME_D32) == 0);
    check_moves(device, 0x101, 1000);
    WANT(set_master(device, 0x08000000, 4096, VME_A32, VME_MBLT | VME_SUPER | VME_DATA, VME_D64) == 0);
    check_moves(device, 0x7f6, 500);
    WANT(set_master(device, 0x200000, 1024, VME_A24, VME_BLT | VME_SUPER | VME_DATA, VME_D16) == 0);
    check_moves(device, 0x101, 300);
}

static void check_slave(int master)
{
    uint8_t bytes[8] = { 1, 2, 3, 4, 5, 6, 7, 8 }, got[8] = { 0 };
    struct vme_slave window, other;
    const int slave = open_device("s0");
    WANT(ioctl(slave, VME_GET_SLAVE, &window) == 0 && window.enable == 1 && window.vme_addr == 0x08000000 && window.size == 4096);
    WANT(window.aspace == VME_A32 && ioctl(slave, VME_SET_SLAVE, &window) == 0);
    other = window;
    other.size = 8192;
    WANT(FAILS(ioctl(slave, VME_SET_SLAVE, &other), EINVAL));
    other = window;
    other.enable = 0;
    WANT(FAILS(ioctl(slave, VME_SET_SLAVE, &other), EINVAL) && FAILS(ioctl(slave, VME_GET_MASTER, &other), EINVAL));
    WANT(pwrite(slave, bytes, 8, 0x203) == 8);
    WANT(set_master(master, 0x08000000, 4096, VME_A32, plain, VME_D32) == 0);
    WANT(pread(master, got, 8, 0x203) == 8 && memcmp(bytes, got, 8) == 0);
    WANT(pread(slave, got, 8, 4095) == 1 && pread(slave, got, 8, 4096) == 0 && close(slave) == 0);
}

static void check_positions(int device)
{
    uint32_t word = 0x01020304;
    WANT(set_master(device, 0x08000000, 4096, VME_A32, plain, VME_D32) == 0);
    WANT(lseek(device, 0x300, SEEK_SET) == 0x300 && write(device, &word, 4) == 4 && lseek(device, 0, SEEK_CUR) == 0x304);
    WANT(lseek(device, -4, SEEK_CUR) == 0x300 && read(device, &word, 4) == 4 && word == 0x01020304);
    WANT(lseek(device, 0, SEEK_END) == 4096 && read(device, &word, 4) == 0);
    WANT(FAILS(lseek(device, 1, SEEK_END), EINVAL) && FAILS(lseek(device, -1, SEEK_SET), EINVAL) && FAILS(lseek(device, 0, 9), EINVAL));
    WANT(lseek(device, 0x300, SEEK_SET) == 0x300);
    const int copy = dup(device), third = fcntl(device, F_DUPFD, 20), fourth = dup2(copy, 30);
    WANT(copy >= 0 && third >= 20 && fourth == 30);
    WANT(read(copy, &word, 4) == 4 && lseek(device, 0, SEEK_CUR) == 0x304 && close(copy) == 0);
    WANT(pread(third, &word, 4, 0x300) == 4 && word == 0x01020304 && close(third) == 0 && close(fourth) == 0);
    WANT(mmap(NULL, 4096, PROT_READ, MAP_SHARED, device, 0) == MAP_FAILED && errno == ENODEV);
    fflush(NULL);
    const pid_t child = fork();
    if (child == 0)
        _exit(pread(device, &word, 4, 0x300) == 4 && word == 0x01020304 ? 0 : 1);
    int status = 1;
    WANT(waitpid(child, &status, 0) == child && status == 0);
}

int main(void)
{
    check_files();
    const int device = open_device("m0");
    WANT(device >= 0);
    check_refusals(device);
    check_master(device);
    check_spaces(device);
    check_blocks(device);
    check_slave(device);
    check_positions(device);
    WANT(close(device) == 0);
    return 0;
}
