--  An allocated object is undone, and its storage goes back: the pool has room for one object, and each of the requests
--  finds it free. The variable holds what it held.
with Ada.Finalization; with Ada.Text_IO; with Ada.Unchecked_Deallocation; with Profile_Pools; with Run_Input;
procedure Main is
   Small : Profile_Pools.First_Fit_Pool (6);
   Negative : exception;
   type Reading is new Ada.Finalization.Limited_Controlled with record Value : Integer := 0; end record;
   type Link is access Reading with Storage_Pool => Small;
   overriding procedure Initialize (Object : in out Reading);
   overriding procedure Finalize (Object : in out Reading);
   procedure Free is new Ada.Unchecked_Deallocation (Reading, Link);
   procedure Initialize (Object : in out Reading) is
   begin
      Run_Input.Get (Object.Value);
      if Object.Value < 0 then raise Negative; end if;
   end Initialize;
   procedure Finalize (Object : in out Reading) is
   begin
      Ada.Text_IO.Put_Line (Integer'Image (Object.Value));
   end Finalize;
   Head : Link;
begin
   for Turn in 1 .. 4 loop
      begin
         Head := new Reading;
         Free (Head);
      exception
         when Negative => Ada.Text_IO.Put_Line ("negative");
         when Run_Input.End_Error => Ada.Text_IO.Put_Line ("no number");
      end;
   end loop;
   if Head = null then Ada.Text_IO.Put_Line ("null"); end if;
end Main;
