package secrets

import (
	"testing"

	"github.com/aws/aws-sdk-go/aws"
	"github.com/aws/aws-sdk-go/aws/credentials"
	"github.com/aws/aws-sdk-go/aws/session"
	"github.com/aws/aws-sdk-go/service/secretsmanager"
)

func TestVersion1ReadsWhatItWrote(t *testing.T) {
	keys := credentials.NewStaticCredentials("any", "any", "")
	config := aws.Config{Endpoint: &address, Region: aws.String("us-east-1"), Credentials: keys}
	client := secretsmanager.New(session.Must(session.NewSession(&config)))
	made := secretsmanager.CreateSecretInput{Name: aws.String("v1/app"), SecretString: aws.String("s3cret")}
	if _, err := client.CreateSecret(&made); err != nil {
		t.Fatal(err)
	}
	read, err := client.GetSecretValue(&secretsmanager.GetSecretValueInput{SecretId: made.Name})
	if err != nil || *read.SecretString != "s3cret" {
		t.Fatal(read, err)
	}
}
