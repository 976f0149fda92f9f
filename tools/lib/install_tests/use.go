// The lines of embed/go/README.md.
package main

import (
	"context"
	"fmt"
	"log"
	"time"

	"rookdresser"
)

type Page struct{ text string }

func fetch(ctx context.Context, url string) (Page, error) {
	return Page{"the text of " + url}, ctx.Err()
}

func lines(ctx context.Context, url string) (Page, error) {
	// README
	return page, err
}

func main() {
	page, err := lines(context.Background(), "a page")
	if err != nil {
		panic(err)
	}
	fmt.Println(page.text)
}
