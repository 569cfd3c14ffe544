/* answer: replies to a stream of questions (replies.h) by the second solver. */

#include "replies.h"
#include "second.h"

int main(void)
{
    static const struct solver second = { second_read, second_line, second_solve };
    reply_to_stream(&second);
    return 0;
}
