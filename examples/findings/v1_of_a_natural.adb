procedure Dec (N : in out Natural)
--# derives N from N;
is
begin
   N := N - 1;
end Dec;
