// Command greet is a host of a plugin: it writes names into the guest's memory and calls the guest's greet, which asks it to say something.
//
//	../library && go run . NAME..
package main

import (
	"fmt"
	"os"
)

const units = 1000000 // for one call

func say(instance *Instance, arguments []uint64) ([]uint64, error) {
	text, err := instance.Read(uint32(arguments[0]), int(arguments[1]))
	if err == nil {
		fmt.Println(string(text))
	}
	return nil, err
}

func greet(names []string) error {
	module, err := os.ReadFile("../../plugins/greet.wasm")
	if err != nil {
		return err
	}
	plugin, err := Load(module, 16)
	if err != nil {
		return err
	}
	defer plugin.Close()
	instance, err := plugin.Open(map[string]Function{"env.say": say}, units)
	if err != nil {
		return err
	}
	defer instance.Close()
	for _, name := range names {
		at, err := instance.Call(units, "room", uint64(len(name)))
		if err != nil {
			return err
		}
		if err := instance.Write(uint32(at[0]), []byte(name)); err != nil {
			return err
		}
		greeted, err := instance.Call(units, "greet", at[0], uint64(len(name)))
		if err != nil {
			return err
		}
		fmt.Println(greeted[0], "greeted")
	}
	return nil
}

func main() {
	if err := greet(os.Args[1:]); err != nil {
		fmt.Fprintln(os.Stderr, "greet:", err)
		os.Exit(1)
	}
}
