/*
 * What programs/buffer.mesa does, by pthreads' mutex and condition variables: numbers go through a buffer of two places, as
 * many as go through it there in 20,000,000 steps of the machine.
 */
#include <pthread.h>
#include <stdlib.h>

enum { NUMBERS = 105000, PLACES = 2 };

static pthread_mutex_t lock = PTHREAD_MUTEX_INITIALIZER;
static pthread_cond_t nonempty = PTHREAD_COND_INITIALIZER;
static pthread_cond_t nonfull = PTHREAD_COND_INITIALIZER;
static int places[PLACES];
static int first;
static int count;

static void put(int number)
{
    if (pthread_mutex_lock(&lock) != 0)
        abort();
    while (count == PLACES)
        pthread_cond_wait(&nonfull, &lock);
    places[(first + count) % PLACES] = number;
    count++;
    pthread_cond_signal(&nonempty);
    pthread_mutex_unlock(&lock);
}

static int get(void)
{
    if (pthread_mutex_lock(&lock) != 0)
        abort();
    while (count == 0)
        pthread_cond_wait(&nonempty, &lock);
    int number = places[first];
    first = (first + 1) % PLACES;
    count--;
    pthread_cond_signal(&nonfull);
    pthread_mutex_unlock(&lock);
    return number;
}

static void *produce(void *argument)
{
    for (int i = 0; i < NUMBERS; i++)
        put(i);
    return argument;
}

int main(void)
{
    pthread_t producer;
    if (pthread_create(&producer, NULL, produce, NULL) != 0)
        return 1;
    int last = 0;
    for (int i = 0; i < NUMBERS; i++)
        last = get();
    pthread_join(producer, NULL);
    return last == NUMBERS - 1 ? 0 : 1;
}
