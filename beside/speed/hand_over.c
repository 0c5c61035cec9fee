/*
 * What programs/hand_over.mesa does, by pthreads' mutex and condition variables: a turn is handed to and fro 20,000 times, or as often
 * as a word says.
 */
#include <pthread.h>
#include <stdlib.h>

static int rounds = 20000;

static pthread_mutex_t lock = PTHREAD_MUTEX_INITIALIZER;
static pthread_cond_t comes[2] = {PTHREAD_COND_INITIALIZER, PTHREAD_COND_INITIALIZER};
static int turn;

static void hand(int mine)
{
    if (pthread_mutex_lock(&lock) != 0)
        abort();
    while (turn != mine)
        pthread_cond_wait(&comes[mine], &lock);
    turn = 1 - mine;
    pthread_cond_signal(&comes[1 - mine]);
    pthread_mutex_unlock(&lock);
}

static void *answer(void *argument)
{
    for (int i = 0; i < rounds; i++)
        hand(1);
    return argument;
}

int main(int count, char **words)
{
    if (count > 1)
        rounds = atoi(words[1]);
    pthread_t other;
    if (pthread_create(&other, NULL, answer, NULL) != 0)
        return 1;
    for (int i = 0; i < rounds; i++)
        hand(0);
    pthread_join(other, NULL);
    return 0;
}
