package main

/*
#cgo CFLAGS: -I${SRCDIR}/../../../include
#cgo LDFLAGS: ${SRCDIR}/../../../out/libsandbox.a
#include <sandbox_plugin.h>
#include <stdlib.h>

// What an instance is given here: a name for its one word, this many pages, and an empty volume that is discarded with it.
// The header's structs hold pointers, and Go's memory may not be behind pointers in memory that is handed to C: so these lie in C.
static uint32_t open_instance(sandbox_session **instance, sandbox_plugin **plugin, uint32_t pages) {
  static const sandbox_bytes name = {(const uint8_t *)"guest", 5}, none = {(const uint8_t *)"", 0};
  const sandbox_supplies supplies = {
      .args = &name, .args_count = 1, .env = &none, .preopens = (const sandbox_preopen *)"", .random = none,
      .limits = {.pages = pages}, .input = none};
  const sandbox_volume fresh = {.kind = SANDBOX_VOLUME_FRESH, .sectors = (const uint8_t(*)[512])""};
  return sandbox_instance_open(instance, plugin, &supplies, &fresh);
}

static uint32_t load_plugin(sandbox_plugin **plugin, const uint8_t *bytes, size_t length, uint32_t pages, int fed, uint32_t *offset) {
  const sandbox_limits limits = {.pages = pages};
  sandbox_why why = {0, 0};
  const uint32_t answer = (fed ? sandbox_plugin_load_fed : sandbox_plugin_load)(plugin, bytes, length, &limits, 0, &why);
  *offset = why.offset;
  return answer;
}
*/
import "C"

import (
	"errors"
	"fmt"
	"unsafe"
)

// Function is one of the host's: it gets the arguments, and gives the result where the guest's import has one. While it runs it may
// read and write the instance's memory, and call nothing of it.
type Function func(instance *Instance, arguments []uint64) ([]uint64, error)

// Input gives what there is of a guest's input, which asks for so many bytes: one at least, or none at its end. It may wait.
type Input func(wanted uint32) ([]byte, error)

// Refused is the number of a call that was refused, as the headers name it.
type Refused uint32

func (number Refused) Error() string {
	var text [128]C.uint8_t
	length := C.sandbox_text(C.SANDBOX_TEXT_FAULT, C.uint32_t(number), &text[0], C.size_t(len(text)))
	if int(length) > len(text) {
		length = C.size_t(len(text))
	}
	return fmt.Sprintf("%d %s", uint32(number), C.GoStringN((*C.char)(unsafe.Pointer(&text[0])), C.int(length)))
}

// Ended says how a call ended that didn't return: by a trap, by proc_exit, without memory, without units, or for want of input.
type Ended struct{ Kind, Code uint32 }

func (ended Ended) Error() string {
	return fmt.Sprintf("it ended with kind %d, code %d", ended.Kind, ended.Code)
}

func checked(answer C.uint32_t) error {
	if answer != C.SANDBOX_OK {
		return Refused(answer)
	}
	return nil
}

// bytesOf is where C finds these bytes for as long as one call takes; of none it is some address.
func bytesOf(bytes []byte) *C.uint8_t {
	if len(bytes) == 0 {
		bytes = []byte{0}
	}
	return (*C.uint8_t)(unsafe.Pointer(&bytes[0]))
}

func numbersOf(numbers []uint64) *C.uint64_t {
	if len(numbers) == 0 {
		numbers = []uint64{0}
	}
	return (*C.uint64_t)(unsafe.Pointer(&numbers[0]))
}

// Plugin is a module that is loaded once. One goroutine at a time uses it, and each instance: the library takes one call at a time.
type Plugin struct {
	raw   *C.sandbox_plugin
	bytes unsafe.Pointer
	pages uint32
}

// Load decodes and validates a module, for instances of at most this many pages. The library reads the bytes until Close: they are copied
// into C's memory.
func Load(module []byte, pages uint32) (*Plugin, error) {
	return load(module, pages, 0)
}

// LoadFed is Load for instances whose input goes on, which OpenFed opens.
func LoadFed(module []byte, pages uint32) (*Plugin, error) {
	return load(module, pages, 1)
}

func load(module []byte, pages uint32, fed C.int) (*Plugin, error) {
	plugin := &Plugin{bytes: C.CBytes(module), pages: pages}
	var offset C.uint32_t
	err := checked(C.load_plugin(&plugin.raw, (*C.uint8_t)(plugin.bytes), C.size_t(len(module)), C.uint32_t(pages), fed, &offset))
	if err != nil {
		C.free(plugin.bytes)
		return nil, fmt.Errorf("the module: %w at byte %d", err, uint32(offset))
	}
	return plugin, nil
}

func (plugin *Plugin) name(part, index int) (string, bool) {
	length := C.sandbox_plugin_name(&plugin.raw, C.uint32_t(part), C.size_t(index), bytesOf(nil), 0)
	if length == C.SIZE_MAX {
		return "", false
	}
	room := make([]byte, int(length)+1)
	C.sandbox_plugin_name(&plugin.raw, C.uint32_t(part), C.size_t(index), bytesOf(room), length)
	return string(room[:length]), true
}

// Close lets the module go, after its instances.
func (plugin *Plugin) Close() {
	C.sandbox_plugin_unload(&plugin.raw)
	C.free(plugin.bytes)
}

// Instance is an instance of a module.
type Instance struct {
	raw       *C.sandbox_session
	used      uint64
	functions []Function
	input     Input
}

// Open makes an instance whose imports are these functions, by module name, a dot and name, and runs its start function and _initialize.
func (plugin *Plugin) Open(imports map[string]Function, units uint64) (*Instance, error) {
	return plugin.OpenFed(imports, nil, units)
}

// OpenFed is Open with an input that goes on, of a plugin that LoadFed has loaded.
func (plugin *Plugin) OpenFed(imports map[string]Function, input Input, units uint64) (*Instance, error) {
	instance := &Instance{input: input}
	for index := 0; ; index++ {
		module, there := plugin.name(C.SANDBOX_IMPORT_MODULE, index)
		if !there {
			break
		}
		name, _ := plugin.name(C.SANDBOX_IMPORT_NAME, index)
		instance.functions = append(instance.functions, imports[module+"."+name])
	}
	if err := checked(C.open_instance(&instance.raw, &plugin.raw, C.uint32_t(plugin.pages))); err != nil {
		return nil, err
	}
	if _, err := instance.run(units); err != nil {
		instance.Close()
		return nil, err
	}
	return instance, nil
}

// Close discards the instance.
func (instance *Instance) Close() { C.sandbox_close(&instance.raw) }

// Call calls an exported function with at most this many units, and gives its results, of which there is one at most. What didn't return is
// let go, so another function can be called, but after proc_exit.
func (instance *Instance) Call(units uint64, name string, arguments ...uint64) ([]uint64, error) {
	called := C.sandbox_invoke(&instance.raw, bytesOf([]byte(name)), C.size_t(len(name)), numbersOf(arguments), C.size_t(len(arguments)))
	if err := checked(called); err != nil {
		return nil, fmt.Errorf("%s: %w", name, err)
	}
	results, err := instance.run(units)
	if err != nil {
		C.sandbox_abandon(&instance.raw)
		return nil, fmt.Errorf("%s: %w", name, err)
	}
	return results, nil
}

func (instance *Instance) run(units uint64) ([]uint64, error) {
	end := instance.used + units
	for {
		var told C.sandbox_told
		if err := checked(C.sandbox_go(&instance.raw, C.uint64_t(end-instance.used), &told)); err != nil {
			return nil, err
		}
		instance.used = uint64(told.used)
		switch told.kind {
		case C.SANDBOX_RETURNED:
			return instance.values(), nil
		case C.SANDBOX_CALLED:
		case C.SANDBOX_STARVED:
			if instance.input == nil {
				return nil, Ended{uint32(told.kind), uint32(told.code)}
			}
			if err := instance.feed(uint32(told.code)); err != nil {
				return nil, err
			}
		case C.SANDBOX_ASKED:
			if err := instance.serve(int(told.call)); err != nil {
				return nil, err
			}
			instance.used++ // an answer takes the unit of the guest's call
		default:
			return nil, Ended{uint32(told.kind), uint32(told.code)}
		}
	}
}

func (instance *Instance) serve(index int) error {
	if instance.functions[index] == nil {
		return errors.New("the host has no function for an import that is called")
	}
	results, err := instance.functions[index](instance, instance.values())
	if err != nil {
		return err
	}
	return checked(C.sandbox_answer(&instance.raw, numbersOf(results), C.size_t(len(results))))
}

// feed hands over what there is of the input, or says that no more come.
func (instance *Instance) feed(wanted uint32) error {
	given, err := instance.input(wanted)
	if err != nil {
		return err
	}
	if len(given) == 0 {
		return checked(C.sandbox_feed_end(&instance.raw))
	}
	return checked(C.sandbox_feed(&instance.raw, bytesOf(given), C.size_t(len(given))))
}

// Output is what the guest has written to descriptor 1 or 2 from a byte on.
func (instance *Instance) Output(descriptor, from int) []byte {
	length := C.sandbox_output(&instance.raw, C.uint32_t(descriptor), C.size_t(from), bytesOf(nil), 0)
	if int(length) <= from {
		return nil
	}
	room := make([]byte, int(length)-from)
	C.sandbox_output(&instance.raw, C.uint32_t(descriptor), C.size_t(from), bytesOf(room), C.size_t(len(room)))
	return room
}

// values are what there is to hand over: arguments, or a result.
func (instance *Instance) values() []uint64 {
	room := make([]uint64, 16)
	return room[:C.sandbox_values(&instance.raw, numbersOf(room), C.size_t(len(room)))]
}

// Read copies bytes out of the guest's memory.
func (instance *Instance) Read(address uint32, length int) ([]byte, error) {
	room := make([]byte, length)
	err := checked(C.sandbox_memory_read(&instance.raw, C.uint32_t(address), bytesOf(room), C.size_t(length)))
	return room, err
}

// Write copies bytes into the guest's memory, where nothing runs or where the guest asks.
func (instance *Instance) Write(address uint32, bytes []byte) error {
	return checked(C.sandbox_memory_write(&instance.raw, C.uint32_t(address), bytesOf(bytes), C.size_t(len(bytes))))
}
