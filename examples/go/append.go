// Appends rows to a table of a server, and sees to it that each is there once, also where an answer was lost.
//
//	append HOST:PORT [TABLE]
//
// The table has the columns id:INT64:REQUIRED,name:STRING,ripe:BOOL,picked:DATE; where none is named it is
// projects/shop/datasets/stock/tables/fruit. It does what ../append.py does, and prints the same. ./build builds it.
package main

import (
	"context"
	"fmt"
	"io"
	"log"
	"os"
	"time"

	"bqstored/fruitpb"
	"bqstored/storagepb"

	"google.golang.org/grpc"
	"google.golang.org/grpc/codes"
	"google.golang.org/protobuf/proto"
	"google.golang.org/protobuf/reflect/protodesc"
	"google.golang.org/protobuf/types/known/wrapperspb"
)

type fruit = fruitpb.Fruit

var batches = [][]*fruit{
	{
		{Id: proto.Int64(1), Name: proto.String("apple"), Ripe: proto.Bool(true), Picked: proto.Int32(20_000)},
		{Id: proto.Int64(2), Name: proto.String("pear")},
	},
	{{Id: proto.Int64(3), Name: proto.String("quince"), Ripe: proto.Bool(false)}},
}

// A client of the write service, with the table that it writes to and the time by which it wants to be done.
type client struct {
	storagepb.BigQueryWriteClient
	ctx   context.Context
	table string
}

// create makes a write stream of the table and gives its name.
func (c *client) create(kind storagepb.WriteStream_Type) string {
	made, err := c.CreateWriteStream(c.ctx, &storagepb.CreateWriteStreamRequest{
		Parent: c.table, WriteStream: &storagepb.WriteStream{Type: kind}})
	check(err)
	return made.Name
}

// request holds the rows and the offset of the first.
func request(rows []*fruit, offset int64) *storagepb.AppendRowsRequest {
	serialized := make([][]byte, len(rows))
	for i, row := range rows {
		var err error
		serialized[i], err = proto.Marshal(row)
		check(err)
	}
	data := &storagepb.AppendRowsRequest_ProtoData{Rows: &storagepb.ProtoRows{SerializedRows: serialized}}
	return &storagepb.AppendRowsRequest{
		Offset: wrapperspb.Int64(offset), Rows: &storagepb.AppendRowsRequest_ProtoRows{ProtoRows: data}}
}

// send sends batch after batch, each at its offset.
func send(call storagepb.BigQueryWrite_AppendRowsClient, stream string, batches [][]*fruit) {
	offset := int64(0)
	for _, batch := range batches {
		next := request(batch, offset)
		if offset == 0 {
			// The first request names the stream and the type of the rows; the call remembers both.
			descriptor := protodesc.ToDescriptorProto((&fruit{}).ProtoReflect().Descriptor())
			next.WriteStream = stream
			next.GetProtoRows().WriterSchema = &storagepb.ProtoSchema{ProtoDescriptor: descriptor}
		}
		if call.Send(next) != nil {
			return // The call is over, and Recv says why.
		}
		offset += int64(len(batch))
	}
	call.CloseSend()
}

// append appends the batches in one call. Where one was written before, as it is after an answer that didn't arrive, the
// server says so and keeps the rows once.
func (c *client) append(stream string, batches [][]*fruit) {
	call, err := c.AppendRows(c.ctx)
	check(err)
	go send(call, stream, batches)
	for {
		response, err := call.Recv()
		if err == io.EOF {
			return
		}
		check(err)
		switch failed := response.GetError(); {
		case failed == nil:
			fmt.Printf("  rows from %d on are written\n", response.GetAppendResult().GetOffset().GetValue())
		case codes.Code(failed.Code) == codes.AlreadyExists:
			fmt.Println("  these rows were written before")
		default:
			for _, row := range response.RowErrors {
				fmt.Printf("  row %d: %s\n", row.Index, row.Message)
			}
			log.Fatal(failed.Message)
		}
	}
}

// buffered appends rows that are seen once they are flushed.
func (c *client) buffered() {
	stream := c.create(storagepb.WriteStream_BUFFERED)
	fmt.Println(stream)
	c.append(stream, batches)
	fmt.Println("  the same again")
	c.append(stream, batches)
	// The offset of the last row that is to be seen.
	response, err := c.FlushRows(c.ctx, &storagepb.FlushRowsRequest{WriteStream: stream, Offset: wrapperspb.Int64(1)})
	check(err)
	fmt.Println("  flushed up to row", response.Offset)
	c.finalize(stream)
}

// finalize ends a stream: it takes no more rows.
func (c *client) finalize(stream string) {
	response, err := c.FinalizeWriteStream(c.ctx, &storagepb.FinalizeWriteStreamRequest{Name: stream})
	check(err)
	fmt.Println("  finalised with", response.RowCount, "rows")
}

// pending appends rows of several streams that are seen at once, or not at all.
func (c *client) pending() {
	var streams []string
	for range batches {
		streams = append(streams, c.create(storagepb.WriteStream_PENDING))
	}
	for i, stream := range streams {
		fmt.Println(stream)
		c.append(stream, batches[i:i+1])
		c.finalize(stream)
	}
	response, err := c.BatchCommitWriteStreams(c.ctx, &storagepb.BatchCommitWriteStreamsRequest{
		Parent: c.table, WriteStreams: streams})
	check(err)
	for _, failed := range response.StreamErrors {
		fmt.Printf("  %s: %s\n", failed.Entity, failed.ErrorMessage)
	}
	if response.CommitTime != nil {
		fmt.Println("committed at", response.CommitTime.AsTime().Format("2006-01-02T15:04:05.000000Z"))
	}
}

func check(err error) {
	if err != nil {
		log.Fatal(err)
	}
}

func main() {
	log.SetFlags(0)
	log.SetPrefix("append: ")
	if len(os.Args) != 2 && len(os.Args) != 3 {
		log.Fatal("append HOST:PORT [TABLE]")
	}
	table := "projects/shop/datasets/stock/tables/fruit"
	if len(os.Args) == 3 {
		table = os.Args[2]
	}
	ctx, cancel := context.WithTimeout(context.Background(), time.Minute)
	defer cancel()
	channel, err := grpc.DialContext(ctx, os.Args[1], grpc.WithInsecure())
	check(err)
	defer channel.Close()
	c := &client{storagepb.NewBigQueryWriteClient(channel), ctx, table}
	c.buffered()
	c.pending()
}
