package secrets

import (
	"context"
	"testing"

	"github.com/aws/aws-sdk-go-v2/aws"
	"github.com/aws/aws-sdk-go-v2/credentials"
	"github.com/aws/aws-sdk-go-v2/service/secretsmanager"
)

func TestVersion2ReadsWhatItWrote(t *testing.T) {
	client := secretsmanager.New(secretsmanager.Options{
		Region:           "us-east-1",
		Credentials:      credentials.NewStaticCredentialsProvider("any", "any", ""),
		EndpointResolver: secretsmanager.EndpointResolverFromURL(address),
	})
	made := secretsmanager.CreateSecretInput{Name: aws.String("v2/app"), SecretString: aws.String("s3cret")}
	if _, err := client.CreateSecret(context.Background(), &made); err != nil {
		t.Fatal(err)
	}
	read, err := client.GetSecretValue(context.Background(), &secretsmanager.GetSecretValueInput{SecretId: made.Name})
	if err != nil || *read.SecretString != "s3cret" {
		t.Fatal(read, err)
	}
}
