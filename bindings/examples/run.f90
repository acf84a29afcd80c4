! A run of three processes: process 0 sends to process 1, which takes the message in, and then fails.
program run
    use lemidrosy
    implicit none
    integer(lemidrosy_word) :: words(lemidrosy_words)
    integer :: deleted(lemidrosy_deletions_size), line(3)
    type(lemidrosy_answer) :: started, sent, received, back

    started = lemidrosy_start(words, 3, [1, 1, 1])
    sent = lemidrosy_send(words, 0, 1)
    received = lemidrosy_deliver(words, sent%value, deleted)
    back = lemidrosy_recover(words, 1, deleted, line)
    if (back%refused /= 0) error stop lemidrosy_refusal_text(back%refused)
    print '(i0, a, 3(1x, i0))', back%value, " rolled back, line", line
end program
