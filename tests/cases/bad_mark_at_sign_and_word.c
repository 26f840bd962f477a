@interface x
