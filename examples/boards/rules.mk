# The programs of a board, of the library as files in C: a board's own Makefile says by what, and how
# they are linked.

OUT = out
BOARDS = ../boards
FLAGS = -std=c99 $(CPU) -Os -ffunction-sections -fdata-sections -Wall -Wextra -Wpedantic -Werror \
    -I$(LIBRARY) -I$(BOARDS)
HEADERS = $(wildcard $(BOARDS)/*.h) $(LIBRARY)/ymodem.h $(LIBRARY)/ymodem_io.h
COMMON = $(addprefix $(OUT)/,$(OWN) print.o ymodem.o)

all: $(OUT)/back.elf $(OUT)/sum.elf $(OUT)/small.elf

$(OUT)/back.elf: $(OUT)/back.o $(OUT)/store.o $(COMMON) board.ld
$(OUT)/sum.elf: $(OUT)/sum.o $(COMMON) board.ld
$(OUT)/small.elf: $(OUT)/small.o $(COMMON) board.ld
# What blocks cost, for bench/blocks.py.
$(OUT)/blocks.elf: $(OUT)/blocks.o $(COMMON) board.ld

$(OUT)/%.elf:
	$(CC) $(FLAGS) $(LINKED) $(filter %.o,$^) -o $@

$(OUT)/ymodem.o: $(LIBRARY)/ymodem.c $(LIBRARY)/ymodem.h
	@mkdir -p $(OUT)
	$(CC) $(FLAGS) -c $< -o $@

$(OUT)/%.o: %.c $(HEADERS)
	@mkdir -p $(OUT)
	$(CC) $(FLAGS) -c $< -o $@

$(OUT)/%.o: $(BOARDS)/%.c $(HEADERS)
	@mkdir -p $(OUT)
	$(CC) $(FLAGS) -c $< -o $@

$(OUT)/%.o: %.S
	@mkdir -p $(OUT)
	$(CC) $(CPU) -c $< -o $@

run: $(OUT)/back.elf
	$(MACHINE) -display none -monitor none -nic none \
	    -chardev socket,id=line,host=127.0.0.1,port=4000,server=on,wait=off -serial chardev:line \
	    -kernel $<

clean:
	rm -rf $(OUT)

.PHONY: all run clean
