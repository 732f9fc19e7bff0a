// Calls of AWS's SDK for Go: each line of standard input is an operation's name and, behind a space, its members as JSON; each line of
// standard output is the reply's members as JSON, or an object with the one member "error".
//
//	client ADDRESS
package main

import (
	"bufio"
	"encoding/json"
	"fmt"
	"os"
	"reflect"
	"strings"

	"github.com/aws/aws-sdk-go/aws"
	"github.com/aws/aws-sdk-go/aws/session"
	"github.com/aws/aws-sdk-go/service/secretsmanager"
)

func ask(client *secretsmanager.SecretsManager, operation string, members string) (interface{}, error) {
	call := reflect.ValueOf(client).MethodByName(operation)
	input := reflect.New(call.Type().In(0).Elem())
	if err := json.Unmarshal([]byte(members), input.Interface()); err != nil {
		return nil, err
	}
	result := call.Call([]reflect.Value{input})
	err, _ := result[1].Interface().(error)
	return result[0].Interface(), err
}

func main() {
	client := secretsmanager.New(session.Must(session.NewSession(&aws.Config{Endpoint: aws.String(os.Args[1])})))
	lines := bufio.NewScanner(os.Stdin)
	for lines.Scan() {
		operation, members, _ := strings.Cut(lines.Text(), " ")
		reply, err := ask(client, operation, members)
		if err != nil {
			reply = map[string]string{"error": err.Error()}
		}
		text, err := json.Marshal(reply)
		if err != nil {
			panic(err)
		}
		fmt.Println(string(text))
	}
}
