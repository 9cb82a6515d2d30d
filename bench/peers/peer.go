// A peer in Go: does a job of version 1 on Go's heap.
//
//	peer run < JOB                   prints what `rtheap run` prints, but for works and totals
//	peer time TAIL WARM TURNS < JOB  does the job, then each thread's last TAIL commands again and
//	                                 again: WARM times, and TURNS times more that are timed
//
// Input, commands and replies are mapped outside the heap, so that the collector's pace is that of
// the graph alone.
package main

import (
	"fmt"
	"math/bits"
	"os"
	"runtime"
	"strconv"
	"strings"
	"sync"
	"sync/atomic"
	"syscall"
	"time"
	"unsafe"
)

const (
	opNew = iota
	opSet
	opNil
	opMov
	opGet
	opPut
	opLen
	opSame
	opSay
)
const most, sub, room = 131072, 32, 1 << 18

type cmd struct {
	op, d, s uint8
	i        uint64
}

// A value is nil, or a pointer to the head of an obj or of a num.
type head struct{ tag uint64 } // an obj: 1 + its name, which is thread*2^20 + serial; a num: 0
type num struct {
	head
	v uint64
}
type obj struct {
	head
	f []atomic.Pointer[head]
}

// Small objects are one allocation with their fields.
type obj2 struct {
	obj
	a [2]atomic.Pointer[head]
}
type obj4 struct {
	obj
	a [4]atomic.Pointer[head]
}
type obj8 struct {
	obj
	a [8]atomic.Pointer[head]
}

func makeObj(name uint64, n int) *head {
	var o *obj
	switch {
	case n <= 2:
		x := new(obj2)
		x.f = x.a[:n]
		o = &x.obj
	case n <= 4:
		x := new(obj4)
		x.f = x.a[:n]
		o = &x.obj
	case n <= 8:
		x := new(obj8)
		x.f = x.a[:n]
		o = &x.obj
	default:
		o = &obj{f: make([]atomic.Pointer[head], n)}
	}
	o.tag = 1 + name
	return &o.head
}

// A reply in the log: constant << 2, int v << 2 | 1, name << 2 | 2, (new name) << 3 | 3, (len k) << 3 | 7.
const (
	aOK = iota << 2
	aNil
	aNull
	aKind
	aRange
	aYes
	aNo
)

var constants = [...]string{"ok", "nil", "null", "kind", "range", "yes", "no"}

func shown(v *head) uint64 {
	if v == nil {
		return aNil
	}
	if v.tag == 0 {
		return (*num)(unsafe.Pointer(v)).v<<2 | 1
	}
	return (v.tag-1)<<2 | 2
}

type worker struct {
	id   uint64
	cmds []cmd
	log  []uint64
	hist []uint64
	max  int64
}

func (w *worker) step(reg *[16]*head, c *cmd, name uint64) uint64 {
	d, s := c.d&15, c.s&15
	switch c.op {
	case opNew:
		reg[d] = makeObj(name, int(c.i))
		return name<<3 | 3
	case opSet:
		x := &num{v: c.i}
		reg[d] = &x.head
	case opNil:
		reg[d] = nil
	case opMov:
		reg[d] = reg[s]
	case opGet:
		h := reg[s]
		if h == nil {
			return aNull
		}
		if h.tag == 0 {
			return aKind
		}
		o := (*obj)(unsafe.Pointer(h))
		if c.i >= uint64(len(o.f)) {
			return aRange
		}
		v := o.f[c.i].Load()
		reg[d] = v
		return shown(v)
	case opPut:
		h := reg[s]
		if h == nil {
			return aNull
		}
		if h.tag == 0 {
			return aKind
		}
		o := (*obj)(unsafe.Pointer(h))
		if c.i >= uint64(len(o.f)) {
			return aRange
		}
		o.f[c.i].Store(reg[d])
	case opLen:
		h := reg[s]
		if h == nil {
			return aNull
		}
		if h.tag == 0 {
			return aKind
		}
		return uint64(len((*obj)(unsafe.Pointer(h)).f))<<3 | 7
	case opSame:
		a, b := reg[d], reg[s]
		if a == b || a != nil && b != nil && a.tag == 0 && b.tag == 0 &&
			(*num)(unsafe.Pointer(a)).v == (*num)(unsafe.Pointer(b)).v {
			return aYes
		}
		return aNo
	default:
		return shown(reg[s])
	}
	return aOK
}

func (w *worker) run(shared *head) {
	var reg [16]*head
	reg[0] = shared
	name := w.id << 20
	name = w.all(&reg, 0, name, false)
	from := len(w.cmds) - tail
	if from < 0 {
		from = 0
	}
	for turn := 0; turn < warm+turns; turn++ {
		name = w.all(&reg, from, name, turn >= warm)
	}
}

// Does the commands from this one on, and says which name was made last.
func (w *worker) all(reg *[16]*head, from int, name uint64, timed bool) uint64 {
	log := w.log[:len(w.cmds)]
	start := time.Now()
	var last int64
	for k := from; k < len(w.cmds); k++ {
		c := &w.cmds[k]
		if c.op == opNew {
			name++
		}
		log[k] = w.step(reg, c, name)
		if timed {
			t := int64(time.Since(start))
			if t-last > w.max {
				w.max = t - last
			}
			w.hist[bucket(uint64(t-last))]++
			last = t
		}
	}
	return name
}

var tail, warm, turns int

// Times are counted by classes: 32 of them to a power of two.
func bucket(ns uint64) uint64 {
	if ns < sub {
		return ns
	}
	e := uint64(63 - bits.LeadingZeros64(ns))
	return (e-4)*sub + ns>>(e-5)&(sub-1)
}
func bucketTop(b uint64) int64 {
	if b < sub {
		return int64(b)
	}
	return int64(sub+b%sub+1)<<(b/sub-1) - 1
}

// The least time that so many thousandths of all take at most, to a 32nd.
func percentile(ws []*worker, thousandths uint64) int64 {
	var total, sum uint64
	for _, w := range ws {
		for _, h := range w.hist {
			total += h
		}
	}
	for b := uint64(0); b < 64*sub; b++ {
		for _, w := range ws {
			sum += w.hist[b]
		}
		if sum*1000 >= total*thousandths {
			return bucketTop(b)
		}
	}
	return 0
}

// Memory outside the heap, zeroed; its pages are taken as they are touched.
func outside(n int) []byte {
	b, err := syscall.Mmap(-1, 0, n+4096, syscall.PROT_READ|syscall.PROT_WRITE, syscall.MAP_ANON|syscall.MAP_PRIVATE)
	if err != nil {
		die("no memory")
	}
	return b[:n]
}
func die(why string) {
	fmt.Fprintln(os.Stderr, "peer:", why)
	os.Exit(3)
}

// Reading. Zero bytes stand behind the text.
type reader struct {
	b       []byte
	p, line int
}

func (r *reader) bad() { die("line " + strconv.Itoa(r.line)) }
func (r *reader) num() uint64 {
	b, q := r.b, r.p
	if b[q] != ' ' {
		r.bad()
	}
	q++
	start := q
	var v uint64
	for x := b[q] - '0'; x <= 9; x = b[q] - '0' {
		v = v*10 + uint64(x)
		q++
	}
	if q == start || q-start > 19 {
		r.bad()
	}
	r.p = q
	return v
}
func (r *reader) reg() uint8 {
	v := r.num()
	if v > 15 {
		r.bad()
	}
	return uint8(v)
}
func (r *reader) word(w string) {
	if !strings.HasPrefix(string(r.b[r.p:r.p+len(w)]), w) {
		r.bad()
	}
	r.p += len(w)
}

func slurp() ([]byte, int) {
	size := 16777216 + 1
	if st, err := os.Stdin.Stat(); err == nil && st.Mode().IsRegular() {
		size = int(st.Size()) + 1
	}
	b, k := outside(size+64), 0
	for k < size {
		n, err := syscall.Read(0, b[k:size])
		if n <= 0 || err != nil {
			break
		}
		k += n
	}
	return b, k
}

func parse(b []byte, size int) (ws []*worker, slots int) {
	r := &reader{b: b, line: 1}
	var h [5]uint64
	for i, w := range []string{"rtheap 1 threads", " blocks", " live", " object", " shared"} {
		r.word(w)
		h[i] = r.num()
	}
	if b[r.p] != '\n' || h[0] < 1 || h[0] > 16 || h[4] > 1024 {
		r.bad()
	}
	r.p++
	var cmds []cmd
	count, open, ended := 0, false, false
	finish := func() {
		if open {
			log := outside(8 * (count + 1))
			ws = append(ws, &worker{id: uint64(len(ws)), cmds: cmds[:count],
				log: unsafe.Slice((*uint64)(unsafe.Pointer(&log[0])), count)})
			for k := 0; k < len(log); k += 4096 {
				log[k] = 1
			}
		}
	}
	for r.p < size && !ended {
		r.line++
		w := uint32(b[r.p]) | uint32(b[r.p+1])<<8 | uint32(b[r.p+2])<<16
		r.p += 3
		var c cmd
		command := true
		switch w {
		case 'n' | 'e'<<8 | 'w'<<16, 'a' | 'r'<<8 | 'r'<<16:
			c.op, c.d, c.i = opNew, r.reg(), r.num()
			if c.i > 65535 {
				r.bad()
			}
		case 's' | 'e'<<8 | 't'<<16:
			c.op, c.d, c.i = opSet, r.reg(), r.num()
			if c.i>>62 != 0 {
				r.bad()
			}
		case 'n' | 'i'<<8 | 'l'<<16:
			c.op, c.d = opNil, r.reg()
		case 'm' | 'o'<<8 | 'v'<<16:
			c.op, c.d, c.s = opMov, r.reg(), r.reg()
		case 'g' | 'e'<<8 | 't'<<16:
			c.op, c.d, c.s, c.i = opGet, r.reg(), r.reg(), r.num()
		case 'p' | 'u'<<8 | 't'<<16:
			c.op, c.s, c.i, c.d = opPut, r.reg(), r.num(), r.reg()
		case 'l' | 'e'<<8 | 'n'<<16:
			c.op, c.s = opLen, r.reg()
		case 's' | 'a'<<8 | 'm'<<16:
			r.word("e")
			c.op, c.d, c.s = opSame, r.reg(), r.reg()
		case 's' | 'a'<<8 | 'y'<<16:
			c.op, c.s = opSay, r.reg()
		case 't' | 'h'<<8 | 'r'<<16:
			r.word("ead")
			finish()
			if r.num() != uint64(len(ws)) || uint64(len(ws)) == h[0] {
				r.bad()
			}
			mem := outside(most * int(unsafe.Sizeof(cmd{})))
			cmds = unsafe.Slice((*cmd)(unsafe.Pointer(&mem[0])), most)
			count, open, command = 0, true, false
		case 'e' | 'n'<<8 | 'd'<<16:
			finish()
			if uint64(len(ws)) != h[0] {
				r.bad()
			}
			ended, command = true, false
		default:
			r.bad()
		}
		if command {
			if !open || count == most {
				r.bad()
			}
			cmds[count] = c
			count++
		}
		if r.p < size {
			if b[r.p] != '\n' {
				r.bad()
			}
			r.p++
		}
	}
	if !ended || r.p != size {
		r.bad()
	}
	return ws, int(h[4])
}

func name(b []byte, n uint64) []byte {
	b = strconv.AppendUint(b, n>>20, 10)
	b = append(b, '.')
	return strconv.AppendUint(b, n&0xFFFFF, 10)
}
func reply(b []byte, r uint64) []byte {
	switch r & 3 {
	case 1:
		b = strconv.AppendUint(append(b, "int "...), r>>2, 10)
	case 2:
		b = name(append(b, "ref "...), r>>2)
	case 3:
		if r&4 != 0 {
			b = strconv.AppendUint(append(b, "len "...), r>>3, 10)
		} else {
			b = append(name(append(b, "new "...), r>>3), " work 0"...)
		}
	default:
		b = append(b, constants[r>>2]...)
	}
	return append(b, '\n')
}

func main() {
	if len(os.Args) == 5 {
		tail, _ = strconv.Atoi(os.Args[2])
		warm, _ = strconv.Atoi(os.Args[3])
		turns, _ = strconv.Atoi(os.Args[4])
	}
	b, size := slurp()
	ws, slots := parse(b, size)
	syscall.Munmap(b[:cap(b)])
	shared := makeObj(uint64(len(ws))<<20, slots)
	var ready, done sync.WaitGroup
	ready.Add(len(ws))
	done.Add(len(ws))
	for _, w := range ws {
		w.hist = make([]uint64, 64*sub)
		go func(w *worker) {
			runtime.LockOSThread()
			ready.Done()
			ready.Wait()
			w.run(shared)
			done.Done()
		}(w)
	}
	done.Wait()
	if turns > 0 {
		var longest int64
		for _, w := range ws {
			if w.max > longest {
				longest = w.max
			}
		}
		fmt.Println("median", percentile(ws, 500), "most", percentile(ws, 999), "longest", longest)
		return
	}
	out := make([]byte, 0, room+128)
	for _, w := range ws {
		head := strconv.Itoa(int(w.id)) + " "
		for _, r := range w.log {
			out = reply(append(out, head...), r)
			if len(out) > room {
				os.Stdout.Write(out)
				out = out[:0]
			}
		}
	}
	out = append(out, "end cycles 0 work 0\n"...)
	os.Stdout.Write(out)
}
