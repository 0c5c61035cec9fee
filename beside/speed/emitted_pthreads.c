/*
 * What the programs of emitted_programs do, by pthreads' mutex and condition variables: WORK KIND, where KIND is
 * `plain` or `robust`, the kind of the mutex. Sums are checked for overflow, as those of the programs are.
 */
#include <pthread.h>
#include <stdint.h>
#include <stdio.h>
#include <stdlib.h>
#include <string.h>

static pthread_mutex_t lock;
static pthread_cond_t one = PTHREAD_COND_INITIALIZER, other = PTHREAD_COND_INITIALIZER;
static int32_t places[2], first, count, turn, waits;

static int32_t add(int32_t left, int32_t right)
{
    int32_t sum;
    if (__builtin_add_overflow(left, right, &sum))
        abort();
    return sum;
}

static void enter(void)
{
    if (pthread_mutex_lock(&lock) != 0)
        abort();
}

static void leave(void)
{
    pthread_mutex_unlock(&lock);
}

static __attribute__((noinline)) void put(int32_t n)
{
    enter();
    while (count == 2)
        pthread_cond_wait(&other, &lock);
    places[add(first, count) % 2] = n;
    count = add(count, 1);
    pthread_cond_signal(&one);
    leave();
}

static __attribute__((noinline)) int32_t get(void)
{
    enter();
    while (count == 0)
        pthread_cond_wait(&one, &lock);
    int32_t n = places[first];
    first = add(first, 1) % 2;
    count = add(count, -1);
    pthread_cond_signal(&other);
    leave();
    return n;
}

static void *produce(void *argument)
{
    for (int32_t i = 0; i < 300000; i = add(i, 1))
        put(i % 7);
    return argument;
}

static int32_t buffer(void)
{
    pthread_t p;
    int32_t sum = 0;
    pthread_create(&p, NULL, produce, NULL);
    for (int32_t i = 0; i < 300000; i = add(i, 1))
        sum = add(sum, get());
    pthread_join(p, NULL);
    return sum;
}

static __attribute__((noinline)) void hand(int32_t from, pthread_cond_t *mine, pthread_cond_t *theirs)
{
    enter();
    while (turn != from)
        pthread_cond_wait(mine, &lock);
    turn = 1 - from;
    pthread_cond_signal(theirs);
    leave();
}

static void *answer(void *argument)
{
    for (int32_t i = 0; i < 50000; i = add(i, 1))
        hand(1, &other, &one);
    return argument;
}

static int32_t hand_over(void)
{
    pthread_t p;
    int32_t i = 0;
    pthread_create(&p, NULL, answer, NULL);
    for (; i < 50000; i = add(i, 1))
        hand(0, &one, &other);
    pthread_join(p, NULL);
    return i;
}

static __attribute__((noinline)) void increase(void)
{
    enter();
    count = add(count, 1);
    if (count == 1)
        pthread_cond_signal(&one);
    leave();
}

static int32_t alone(void)
{
    for (int32_t i = 0; i < 3000000; i = add(i, 1))
        increase();
    return count;
}

static void *wait_once(void *argument)
{
    enter();
    waits = 1;
    while (count == 0)
        pthread_cond_wait(&one, &lock);
    leave();
    return argument;
}

static __attribute__((noinline)) int32_t waiting(void)
{
    enter();
    int32_t found = waits;
    leave();
    return found;
}

static int32_t waited(void)
{
    pthread_t p;
    pthread_create(&p, NULL, wait_once, NULL);
    while (!waiting())
        continue;
    increase();
    pthread_join(p, NULL);
    for (int32_t i = 1; i < 3000000; i = add(i, 1))
        increase();
    return count;
}

static void *increase_often(void *argument)
{
    for (int32_t i = 0; i < 200000; i = add(i, 1))
        increase();
    return argument;
}

static int32_t four(void)
{
    pthread_t threads[4];
    for (int i = 0; i < 4; i++)
        pthread_create(&threads[i], NULL, increase_often, NULL);
    for (int i = 0; i < 4; i++)
        pthread_join(threads[i], NULL);
    return count;
}

int main(int words, char **word)
{
    const struct {
        const char *name;
        int32_t (*work)(void);
    } works[] = {{"buffer", buffer}, {"hand_over", hand_over}, {"alone", alone}, {"waited", waited}, {"four", four}};
    pthread_mutexattr_t kind;
    if (words != 3)
        return 2;
    pthread_mutexattr_init(&kind);
    pthread_mutexattr_setrobust(&kind, strcmp(word[2], "robust") == 0 ? PTHREAD_MUTEX_ROBUST : PTHREAD_MUTEX_STALLED);
    pthread_mutex_init(&lock, &kind);
    for (size_t i = 0; i < sizeof works / sizeof works[0]; i++)
        if (strcmp(word[1], works[i].name) == 0)
            printf("%d\n", works[i].work());
    return 0;
}
