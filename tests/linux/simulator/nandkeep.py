#!/usr/bin/env python3
"""Makes nandkeep.c of the kernel's nandsim.c: a simulator of NAND that keeps its pages at an address in memory, which a virtual machine's file
has over a kill; that counts what it is asked; and whose power goes in the midst of a program or an erase. What comes of it is under the
license of nandsim.c, and stands in no repository.

    nandkeep.py nandsim.c >nandkeep.c"""
import sys

text = open(sys.argv[1], encoding="utf-8").read()


def swap(old, new):
    """A piece of the source, which has to stand there, by another."""
    global text
    if old not in text:
        sys.exit("nandkeep: not in this nandsim.c: %s" % old)
    text = text.replace(old, new, 1)


swap('pr_fmt(fmt)  "[nandsim]"', 'pr_fmt(fmt)  "[nandkeep]"')
swap('#include <linux/debugfs.h>\n', '#include <linux/debugfs.h>\n#include <linux/io.h>\n#include <linux/reboot.h>\n')
swap('static unsigned int bch;\n', '''static unsigned int bch;
/* nandkeep: where the pages are, and whether the part begins erased. */
static unsigned long keep;
static unsigned int fresh;
/* A program or an erase that is to be the last: 1 is the next. It's torn, and the machine is gone. */
static unsigned int cut;
/* What was asked, and what a data sheet may forbid. */
static unsigned long n_read, n_prog, n_erase, n_quarter;
static unsigned long n_disorder;  /* programs of a page below one that was programmed since the erase */
static unsigned long n_again;     /* programs of a page that has a program since the erase */
static unsigned long n_many;      /* programs of a page that has four */
static unsigned long n_twice;     /* programs of a quarter that isn't FF with one that isn't */
/* What a block whose erase fails holds then: 0 it's erased all the same, 1 what it held, 2 some more bits are set. */
static unsigned int weak_how;
/* As a controller whose ECC is made in hardware for a whole page alone. */
static unsigned int nosub;
/* With soft the machine stays when the power is cut: no write passes any more, until dead is 0 again. */
static unsigned int soft, dead;
static u8 *ns_kept, *ns_nop;
static int *ns_top;
module_param(keep, ulong, 0400);
module_param(fresh, uint, 0400);
module_param(cut, uint, 0600);
module_param(weak_how, uint, 0600);
module_param(nosub, uint, 0400);
module_param(soft, uint, 0600);
module_param(dead, uint, 0600);
module_param(n_read, ulong, 0600);
module_param(n_prog, ulong, 0600);
module_param(n_quarter, ulong, 0600);
module_param(n_erase, ulong, 0600);
module_param(n_disorder, ulong, 0600);
module_param(n_again, ulong, 0600);
module_param(n_many, ulong, 0600);
module_param(n_twice, ulong, 0600);
''')
swap('''	ns->pages = vmalloc(array_size(sizeof(union ns_mem), ns->geom.pgnum));
''', '''	ns_nop = vzalloc(ns->geom.pgnum);
	ns_top = vzalloc(array_size(sizeof(int), ns->geom.pgnum / ns->geom.pgsec));
	if (!ns_nop || !ns_top)
		return -ENOMEM;
	if (keep) {
		size_t size = (size_t)ns->geom.pgnum * ns->geom.pgszoob;

		ns_kept = memremap(keep, size, MEMREMAP_WB);
		if (!ns_kept) {
			NS_ERR("no memory at %lx\\n", keep);
			return -ENOMEM;
		}
		if (fresh)
			memset(ns_kept, 0xff, size);
	}
	ns->pages = vmalloc(array_size(sizeof(union ns_mem), ns->geom.pgnum));
''')
swap('''		ns->pages[i].byte = NULL;
	}
	ns->nand_pages_slab''', '''		ns->pages[i].byte = ns_kept ? ns_kept + (size_t)i * ns->geom.pgszoob : NULL;
	}
	ns->nand_pages_slab''')
swap('''			if (ns->pages[i].byte)
				kmem_cache_free(ns->nand_pages_slab,''', '''			if (ns->pages[i].byte && !ns_kept)
				kmem_cache_free(ns->nand_pages_slab,''')
swap('''		kmem_cache_destroy(ns->nand_pages_slab);
''', '''		kmem_cache_destroy(ns->nand_pages_slab);
		if (ns_kept)
			memunmap(ns_kept);
		vfree(ns_nop);
		vfree(ns_top);
''')
swap('''	chip->options   |= NAND_SKIP_BBTSCAN;
''', '''	chip->options   |= NAND_SKIP_BBTSCAN;
	if (nosub)
		chip->options |= NAND_NO_SUBPAGE_WRITE;
''')
# reads
swap('''	mypage = NS_GET_PAGE(ns);
	if (mypage->byte == NULL) {
		NS_DBG("read_page: page %d not allocated\\n", ns->regs.row);''', '''	n_read++;
	mypage = NS_GET_PAGE(ns);
	if (mypage->byte == NULL) {
		NS_DBG("read_page: page %d not allocated\\n", ns->regs.row);''')
# erases
swap('''	mypage = NS_GET_PAGE(ns);
	for (i = 0; i < ns->geom.pgsec; i++) {
		if (mypage->byte != NULL) {''', '''	mypage = NS_GET_PAGE(ns);
	n_erase++;
	memset(ns_nop + ns->regs.row, 0, ns->geom.pgsec);
	ns_top[ns->regs.row / ns->geom.pgsec] = 0;
	if (ns_kept) {
		size_t size = (size_t)ns->geom.pgsec * ns->geom.pgszoob;

		if (ns_is_cut())
			ns_tear_erase(mypage->byte, size, ns->geom.pgszoob);
		else
			memset(mypage->byte, 0xff, size);
		return;
	}
	for (i = 0; i < ns->geom.pgsec; i++) {
		if (mypage->byte != NULL) {''')
swap('''/*
 * Erase all pages in the specified sector.
 */''', '''static bool ns_is_cut(void)
{
	return cut && --cut == 0;
}

static void ns_power_off(void)
{
	if (soft) {
		dead = 1;
		return;
	}
	emergency_restart();
	for (;;)
		cpu_relax();
}

/* Nothing, all, some pages, or some bits of an erase. */
static void ns_tear_erase(u_char *at, size_t size, unsigned int page)
{
	size_t i;

	switch (get_random_u32() % 4) {
	case 0:
		break;
	case 1:
		memset(at, 0xff, size);
		break;
	case 2:
		for (i = 0; i < size; i += page)
			if (get_random_u32() & 1)
				memset(at + i, 0xff, page);
		break;
	default:
		for (i = 0; i < size; i++)
			at[i] |= get_random_u32();
	}
	ns_power_off();
}

/* Nothing, all, a beginning, or some bits of a program. */
static void ns_tear_program(u_char *at, const u_char *with, int num)
{
	int i, n = num;
	u32 how = get_random_u32() % 4;

	if (how == 0)
		n = 0;
	if (how == 2)
		n = get_random_u32() % num;
	for (i = 0; i < n; i++)
		at[i] &= with[i] | (how == 3 ? get_random_u32() : 0);
	ns_power_off();
}

static void ns_count_program(struct nandsim *ns, const u_char *at, const u_char *with, int num)
{
	int q, i, row = ns->regs.row, block = row / ns->geom.pgsec;
	int step = ns->geom.pgsz >= 2048 ? 512 : ns->geom.pgsz;

	n_prog++;
	if (ns_nop[row])
		n_again++;
	if (ns_nop[row] >= 4)
		n_many++;
	if (ns_nop[row] < 255)
		ns_nop[row]++;
	if (row % ns->geom.pgsec + 1 < ns_top[block])
		n_disorder++;
	else
		ns_top[block] = row % ns->geom.pgsec + 1;
	for (q = 0; q + step <= num && q < ns->geom.pgsz; q += step) {
		bool old = false, new = false;

		for (i = q; i < q + step; i++) {
			old |= at[i] != 0xff;
			new |= with[i] != 0xff;
		}
		if (new)
			n_quarter++;
		if (old && new)
			n_twice++;
	}
}

/*
 * Erase all pages in the specified sector.
 */''')
# nothing is written without power
swap('''		ns->regs.row = (ns->regs.row <<
				8 * (ns->geom.pgaddrbytes''', '''		if (dead)
			return -1;

		ns->regs.row = (ns->regs.row <<
				8 * (ns->geom.pgaddrbytes''')
swap('''		if (ns_prog_page(ns, num) == -1)
			return -1;
''', '''		if (dead || ns_prog_page(ns, num) == -1 || dead)
			return -1;
''')
# erases that fail
swap('''		ns_erase_sector(ns);

		NS_MDELAY(erase_delay);
''', '''		weak = ns_erase_error(erase_block_no);
		if (!weak || weak_how == 0 || !ns_kept)
			ns_erase_sector(ns);
		else if (weak_how == 2)
			for (num = 0; num < ns->geom.pgsec * ns->geom.pgszoob; num++)
				NS_GET_PAGE(ns)->byte[num] |= get_random_u32() & get_random_u32();

		NS_MDELAY(erase_delay);
''')
swap('		if (ns_erase_error(erase_block_no)) {', '		if (weak || dead) {')
swap('	unsigned int erase_block_no, page_no;\n', '	unsigned int erase_block_no, page_no;\n	bool weak;\n')
# programs
swap('''	pg_off = NS_PAGE_BYTE_OFF(ns);
	for (i = 0; i < num; i++)
		pg_off[i] &= ns->buf.byte[i];

	return 0;''', '''	pg_off = NS_PAGE_BYTE_OFF(ns);
	ns_count_program(ns, pg_off, ns->buf.byte, num);
	if (ns_is_cut()) {
		ns_tear_program(pg_off, ns->buf.byte, num);
		return -1;
	}
	for (i = 0; i < num; i++)
		pg_off[i] &= ns->buf.byte[i];

	return 0;''')
sys.stdout.write(text)
