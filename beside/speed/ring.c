/*
 * What the ring of under_load does, by pthreads' mutex and condition variables: a token goes round 100 threads 100 times,
 * or as often as a word says.
 * Each thread takes it from a place of its own and puts it into the next one's. Two places share a mutex, as two stand in a
 * monitor there.
 */
#include <pthread.h>
#include <stdbool.h>
#include <stdlib.h>

enum { THREADS = 100 };

static int rounds = 100;

static pthread_mutex_t locks[THREADS / 2];
static pthread_cond_t comes[THREADS];
static bool here[THREADS];

static void put(int place)
{
    if (pthread_mutex_lock(&locks[place / 2]) != 0)
        abort();
    here[place] = true;
    pthread_cond_signal(&comes[place]);
    pthread_mutex_unlock(&locks[place / 2]);
}

static void take(int place)
{
    if (pthread_mutex_lock(&locks[place / 2]) != 0)
        abort();
    while (!here[place])
        pthread_cond_wait(&comes[place], &locks[place / 2]);
    here[place] = false;
    pthread_mutex_unlock(&locks[place / 2]);
}

static void *member(void *argument)
{
    int mine = (int)((bool *)argument - here);
    for (int i = 0; i < rounds; i++) {
        take(mine);
        put((mine + 1) % THREADS);
    }
    return NULL;
}

int main(int count, char **words)
{
    if (count > 1)
        rounds = atoi(words[1]);
    pthread_t threads[THREADS];
    for (int i = 0; i < THREADS / 2; i++)
        pthread_mutex_init(&locks[i], NULL);
    for (int i = 0; i < THREADS; i++)
        pthread_cond_init(&comes[i], NULL);
    for (int i = 0; i < THREADS; i++)
        if (pthread_create(&threads[i], NULL, member, &here[i]) != 0)
            return 1;
    put(0);
    for (int i = 0; i < THREADS; i++)
        pthread_join(threads[i], NULL);
    return 0;
}
