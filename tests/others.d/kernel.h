/*
 * kernel.h: as much of Linux as mISDN's layer2.c, tei.c and fsm.c ask for, over the C library. No lock locks, as one thread
 * is all there is. What a timer starts and stops is the program's: add_timer and del_timer stand in misdn_link.c and
 * misdn_teis.c, as does printk, by which the stack tells its errors.
 */
#ifndef OTHERS_KERNEL_H
#define OTHERS_KERNEL_H

#include <errno.h>
#include <stdarg.h>
#include <stdbool.h>
#include <stddef.h>
#include <stdint.h>
#include <stdio.h>
#include <stdlib.h>
#include <string.h>
#include <sys/ioctl.h>
#include <sys/socket.h>
#include <sys/types.h>

#define __KERNEL__ 1
#define __packed __attribute__((packed))

typedef uint8_t u8;
typedef uint16_t u16;
typedef uint32_t u32;
typedef unsigned gfp_t;
typedef int64_t ktime_t;
typedef int rwlock_t;
typedef int wait_queue_head_t;
typedef uint8_t __u8;
typedef uint16_t __u16;
typedef uint32_t __u32;
typedef uint64_t __u64;

#define GFP_ATOMIC 0
#define GFP_KERNEL 0
#define HZ 1000
#define jiffies 0ul
#define KERN_DEBUG ""
#define KERN_ERR ""
#define KERN_WARNING ""
#define KERN_NOTICE ""
#define EXPORT_SYMBOL(name)
#define likely(it) (it)
#define ARRAY_SIZE(it) (sizeof(it) / sizeof *(it))
#define array3_size(a, b, c) ((size_t)(a) * (b) * (c))
#define container_of(at, type, member) ((type *)((char *)(at) - offsetof(type, member)))
#define dev_name(device) "x"

struct va_format {
    const char *fmt;
    va_list *va;
};
struct device {
    int unused;
};
struct completion {
    int unused;
};
struct mutex {
    int unused;
};
struct sock {
    int unused;
};
struct hlist_head {
    void *first;
};
struct task_struct;

int printk(const char *format, ...);

static inline void *kzalloc(size_t size, gfp_t how) { (void)how; return calloc(1, size); }
static inline void kfree(const void *at) { free((void *)at); }
static inline void *dev_get_drvdata(struct device *device) { (void)device; return NULL; }

/* ---- Bits ------------------------------------------------------------------------------------------------------------ */

#define BITS_TO_LONGS(count) (((count) + 63) / 64)
#define DECLARE_BITMAP(name, count) unsigned long name[BITS_TO_LONGS(count)]

static inline void __set_bit(int bit, unsigned long *bits) { bits[bit / 64] |= 1ul << bit % 64; }
static inline int test_bit(int bit, const unsigned long *bits) { return bits[bit / 64] >> bit % 64 & 1; }
static inline int test_and_set_bit(int bit, unsigned long *bits) {
    int was = test_bit(bit, bits);
    __set_bit(bit, bits);
    return was;
}
static inline int test_and_clear_bit(int bit, unsigned long *bits) {
    int was = test_bit(bit, bits);
    bits[bit / 64] &= ~(1ul << bit % 64);
    return was;
}
static inline int find_next_zero_bit(const unsigned long *bits, int count, int from) {
    while (from < count && test_bit(from, bits))
        from++;
    return from;
}
#define find_first_zero_bit(bits, count) find_next_zero_bit(bits, count, 0)

/* ---- Lists and locks ------------------------------------------------------------------------------------------------- */

struct list_head {
    struct list_head *next, *prev;
};
static inline void INIT_LIST_HEAD(struct list_head *head) { head->next = head->prev = head; }
static inline void list_add_tail(struct list_head *item, struct list_head *head) {
    item->prev = head->prev;
    item->next = head;
    head->prev->next = item;
    head->prev = item;
}
/* A channel that the stubs never put into a list may be taken out of it. */
static inline void list_del(struct list_head *item) {
    if (item->next != NULL) {
        item->next->prev = item->prev;
        item->prev->next = item->next;
    }
}
static inline int list_empty(const struct list_head *head) { return head->next == head; }
static inline int list_is_last(const struct list_head *item, const struct list_head *head) { return item->next == head; }
#define list_for_each_entry(at, head, member)                                                \
    for (at = container_of((head)->next, __typeof__(*at), member); &at->member != (head);    \
         at = container_of(at->member.next, __typeof__(*at), member))
#define list_for_each_entry_safe(at, after, head, member)                                    \
    for (at = container_of((head)->next, __typeof__(*at), member),                           \
        after = container_of(at->member.next, __typeof__(*at), member);                      \
         &at->member != (head); at = after, after = container_of(after->member.next, __typeof__(*after), member))

#define read_lock_irqsave(lock, flags) ((void)(flags))
#define read_unlock_irqrestore(lock, flags) ((void)(flags))
#define write_lock_irqsave(lock, flags) ((void)(flags))
#define write_unlock_irqrestore(lock, flags) ((void)(flags))
#define rwlock_init(lock) ((void)(lock))
#define mutex_lock(lock) ((void)(lock))
#define mutex_unlock(lock) ((void)(lock))

/* ---- Buffers --------------------------------------------------------------------------------------------------------- */

enum { HEADROOM = 64 };

/* Octets lie at the end of a block with room before them. */
struct sk_buff {
    struct sk_buff *next;
    unsigned char *data;
    unsigned len, size;
    char cb[48];
    unsigned char block[];
};
struct sk_buff_head {
    struct sk_buff *first, *last;
    unsigned count;
};

static inline struct sk_buff *alloc_skb(unsigned size, gfp_t how) {
    struct sk_buff *it = calloc(1, sizeof *it + HEADROOM + size);
    (void)how;
    it->data = it->block + HEADROOM;
    it->size = size;
    return it;
}
static inline void dev_kfree_skb(struct sk_buff *it) { free(it); }
static inline void skb_reserve(struct sk_buff *it, unsigned count) { it->data += count; }
static inline void skb_put_data(struct sk_buff *it, const void *from, unsigned count) {
    memcpy(it->data + it->len, from, count);
    it->len += count;
}
static inline void skb_trim(struct sk_buff *it, unsigned length) { if (it->len > length) it->len = length; }
static inline void *skb_pull(struct sk_buff *it, unsigned count) { it->len -= count; return it->data += count; }
static inline void *skb_push(struct sk_buff *it, unsigned count) { it->len += count; return it->data -= count; }
static inline struct sk_buff *skb_copy(const struct sk_buff *from, gfp_t how) {
    struct sk_buff *it = alloc_skb(from->size, how);
    skb_put_data(it, from->data, from->len);
    memcpy(it->cb, from->cb, sizeof it->cb);
    return it;
}
static inline struct sk_buff *skb_realloc_headroom(const struct sk_buff *from, unsigned room) { (void)room; return skb_copy(from, 0); }

static inline void skb_queue_head_init(struct sk_buff_head *queue) { *queue = (struct sk_buff_head){NULL, NULL, 0}; }
static inline unsigned skb_queue_len(const struct sk_buff_head *queue) { return queue->count; }
static inline void skb_queue_tail(struct sk_buff_head *queue, struct sk_buff *it) {
    it->next = NULL;
    if (queue->count++ == 0)
        queue->first = it;
    else
        queue->last->next = it;
    queue->last = it;
}
static inline void skb_queue_head(struct sk_buff_head *queue, struct sk_buff *it) {
    it->next = queue->first;
    queue->first = it;
    if (queue->count++ == 0)
        queue->last = it;
}
static inline struct sk_buff *skb_dequeue(struct sk_buff_head *queue) {
    struct sk_buff *it = queue->first;
    if (it != NULL) {
        queue->first = it->next;
        queue->count--;
    }
    return it;
}
static inline void skb_queue_purge(struct sk_buff_head *queue) {
    struct sk_buff *it;
    while ((it = skb_dequeue(queue)) != NULL)
        dev_kfree_skb(it);
}

/* ---- Timers ---------------------------------------------------------------------------------------------------------- */

struct timer_list {
    unsigned long expires;
    bool is_pending;
};
#define from_timer(at, timer, member) container_of(timer, __typeof__(*at), member)
#define timer_setup(timer, call, flags) ((timer)->is_pending = false, (void)(call))
static inline int timer_pending(const struct timer_list *timer) { return timer->is_pending; }
void add_timer(struct timer_list *timer);
int del_timer(struct timer_list *timer);

/* A process has so many random numbers in a row that they need not be: each asks for the next. */
void get_random_bytes(void *at, int count);

#endif
